//! Request iii: what a long run has to meet of values over 2,048 bytes and of more than 200 setpoints, which a box that isn't changed refuses. It is told from
//! the records before a call, from the call and from what it gave.

use crate::answer::Answer;
use crate::calls::Call;
use crate::coverage::whole_body;
use crate::twin::Twin;
use starterbell_model::contacts;
use starterbell_model::limits::RECORD_SLOT;
use starterbell_model::message::{self, Message};
use starterbell_model::recipe::{differences, read_of_any_size, sequence_of, Setpoint};
use starterbell_model::records;
use starterbell_model::steps::Step;
use starterbell_model::wire::read_varint;
use starterbell_model::writer;

pub const MET: [&str; 37] = [
    "put: a value of 2,049 bytes is taken",
    "receive: a value of 2,049 bytes is taken",
    "put: a value of 3,072 bytes is taken",
    "receive: a value of 3,072 bytes is taken",
    "put: 9 for 3,073 bytes",
    "receive: 9 for 3,073 bytes",
    "put: 400 setpoints are taken",
    "receive: 400 setpoints are taken",
    "put: 9 for 401 setpoints",
    "receive: 9 for 401 setpoints",
    "put: more than 200 setpoints in at most 2,048 bytes are taken",
    "receive: more than 200 setpoints in at most 2,048 bytes are taken",
    "put: more than 200 setpoints in more than 2,048 bytes are taken",
    "receive: more than 200 setpoints in more than 2,048 bytes are taken",
    "put: a value that is higher only after 2,048 bytes is taken",
    "receive: a value that is higher only after 2,048 bytes is taken",
    "put: 10 for a value that is lower only after 2,048 bytes",
    "receive: 10 for a value that is lower only after 2,048 bytes",
    "put: a held value over 2,048 bytes is taken again",
    "receive: a held value over 2,048 bytes is taken again",
    "receive: the echo of a value over 2,048 bytes",
    "receive: the largest echo, a body of 3,342 bytes",
    "find: a value over 2,048 bytes is found",
    "find: a value of 3,072 bytes is found",
    "receive: GET_VALUE is served a value over 2,048 bytes",
    "receive: GET_VALUE is served a value of 3,072 bytes",
    "receive: the largest reply, a body of 15,111 bytes",
    "put: in form with a record of 3,072 bytes",
    "find: in form with a record of 3,072 bytes",
    "receive: in form with a record of 3,072 bytes",
    "put: 0 for a record of 3,073 bytes",
    "find: 0 for a record of 3,073 bytes",
    "receive: 0 for a record of 3,073 bytes",
    "write: a value of 3,072 bytes is written",
    "write: 21 for a value of 3,073 bytes",
    "read: a value of 3,073 bytes is read",
    "receive: a value of 3,073 bytes is given on the asking side",
];

/// Whether something was met, and what.
type Case = (bool, &'static str);

/// What a call met; `before` is as much of the records as it was lent.
pub fn met(before: &[u8], twin: &Twin, call: &Call, answer: &Answer) -> Vec<&'static str> {
    let store = Store { before, code: answer.code };
    let cases = match &call.step {
        Step::Put { key, value } => [store.put(key, value), store.form(FORMS[0])].concat(),
        Step::Find { key } => [store.find(key), store.form(FORMS[1])].concat(),
        Step::Receive { line, piece } => {
            let (world, ours) = (&twin.world, &twin.world.me.place);
            let others_fit = answer.code != 0 || contacts::in_form(&world.contacts, ours) && world.lines[*line].conn.in_form(ours);
            let form = if others_fit { store.form(FORMS[2]) } else { vec![] };
            [store.receive(piece, &answer.numbers), form, heard_back(twin, answer)].concat()
        }
        Step::Write { message } => write(message, answer.code),
        Step::Read { .. } => vec![(answer.code == 64 && value_in(&answer.numbers) == 3_073, "read: a value of 3,073 bytes is read")],
        _ => vec![],
    };
    cases.into_iter().filter(|(is, _)| *is).map(|(_, what)| what).collect()
}

/// In form, and out of form: by put, find and receive.
const FORMS: [[&str; 2]; 3] = [
    ["put: in form with a record of 3,072 bytes", "put: 0 for a record of 3,073 bytes"],
    ["find: in form with a record of 3,072 bytes", "find: 0 for a record of 3,073 bytes"],
    ["receive: in form with a record of 3,072 bytes", "receive: 0 for a record of 3,073 bytes"],
];

/// The length of a message's value.
fn value_of(m: &Message) -> usize {
    m.record.as_ref().map_or(0, |record| record.value.len())
}

/// The length of the value that a view of eight numbers points at.
fn value_in(view: &[u64]) -> u64 {
    view[7] - view[6]
}

/// What a peer is told, or on the asking side the host.
fn heard_back(twin: &Twin, answer: &Answer) -> Vec<Case> {
    match answer.code {
        65 => reply(&twin.world.reply[..answer.numbers[1] as usize]),
        66 => vec![(value_in(&answer.numbers[4..]) == 3_073, "receive: a value of 3,073 bytes is given on the asking side")],
        _ => vec![],
    }
}

/// A put that is echoed, or a record that is served.
fn reply(whole: &[u8]) -> Vec<Case> {
    let (length, said) = said(whole);
    let (echo, served, value) = (said.kind == message::PUT_VALUE, said.kind == message::GET_VALUE, value_of(&said));
    vec![
        (echo && value > 2_048, "receive: the echo of a value over 2,048 bytes"),
        (echo && length == 3_342, "receive: the largest echo, a body of 3,342 bytes"),
        (served && value > 2_048, "receive: GET_VALUE is served a value over 2,048 bytes"),
        (served && value == 3_072, "receive: GET_VALUE is served a value of 3,072 bytes"),
        (served && length == 15_111, "receive: the largest reply, a body of 15,111 bytes"),
    ]
}

/// The length of a reply's body, and the message that it is.
pub fn said(whole: &[u8]) -> (u64, Message) {
    let (length, at) = read_varint(whole, 0, whole.len()).expect("a prefix");
    (length, message::decode(&whole[at..]).expect("our own reply"))
}

fn write(m: &Message, code: u32) -> Vec<Case> {
    let length = value_of(m);
    let mut shorter = m.clone();
    shorter.record.iter_mut().for_each(|record| record.value.truncate(3_072));
    vec![
        (code == 64 && length == 3_072, "write: a value of 3,072 bytes is written"),
        (code == 21 && length == 3_073 && writer::body_of(&shorter).is_ok(), "write: 21 for a value of 3,073 bytes"),
    ]
}

/// How many setpoints the longer list of a value has that breaks no rule but those on its length and on their number.
fn setpoints_in(value: &[u8]) -> Option<usize> {
    let leaps = |list: &[Setpoint]| differences(list).iter().any(|by| by.abs() > 5_000);
    read_of_any_size(value).filter(|recipe| !recipe.lists().into_iter().any(leaps)).map(|recipe| recipe.core.len().max(recipe.wrap.len()))
}

/// Whether two values of one sequence are the same for 2,048 bytes, and differ after them.
fn differ_late(a: &[u8], b: &[u8]) -> bool {
    let long = a.len() > 2_048 && b.len() > 2_048;
    long && a[..2_048] == b[..2_048] && a != b && sequence_of(a) == sequence_of(b)
}

/// Records before a call, and what the call gave.
struct Store<'a> {
    before: &'a [u8],
    code: u32,
}

impl Store<'_> {
    fn held(&self, key: &[u8]) -> Vec<u8> {
        records::find(self.before, key).ok().flatten().map_or(vec![], |found| found.value)
    }

    /// Whether some record has 3,072 bytes and the call didn't give 0, or gave it for one of 3,073 bytes alone.
    fn form(&self, [in_form, out_of_form]: [&'static str; 2]) -> Vec<Case> {
        let longest = records::entries(self.before).is_ok_and(|all| all.iter().flatten().any(|e| e.value.len() == 3_072));
        vec![(self.code != 0 && longest, in_form), (self.code == 0 && !records::in_form(self.before) && self.fits_but_for_a_byte(), out_of_form)]
    }

    /// Whether the records would be in form if those of 3,073 bytes had 3,072.
    fn fits_but_for_a_byte(&self) -> bool {
        let mut shorter = self.before.to_vec();
        shorter.chunks_exact_mut(RECORD_SLOT).filter(|slot| slot[2..4] == [0x01, 0x0c]).for_each(|slot| slot[2] = 0);
        records::in_form(&shorter)
    }

    fn find(&self, key: &[u8]) -> Vec<Case> {
        let length = self.held(key).len();
        vec![
            (self.code == 64 && length > 2_048, "find: a value over 2,048 bytes is found"),
            (self.code == 64 && length == 3_072, "find: a value of 3,072 bytes is found"),
        ]
    }

    fn put(&self, key: &[u8], value: &[u8]) -> Vec<Case> {
        self.offered(key, value, self.code == 64).into_iter().map(|(is, own, _)| (is, own)).collect()
    }

    /// A put that a piece had whole.
    fn receive(&self, piece: &[u8], numbers: &[u64]) -> Vec<Case> {
        match message::decode(whole_body(piece, numbers)) {
            Ok(Message { kind: message::PUT_VALUE, record: Some(record), .. }) => {
                self.offered(&record.key, &record.value, self.code == 65).into_iter().map(|(is, _, sent)| (is, sent)).collect()
            }
            _ => vec![],
        }
    }

    /// A value that is put by the host or sent by a peer, with what that is called for each of them.
    fn offered(&self, key: &[u8], value: &[u8], taken: bool) -> Vec<(bool, &'static str, &'static str)> {
        let (length, setpoints, held) = (value.len(), setpoints_in(value), self.held(key));
        let (short, late) = (length <= 2_048, differ_late(&held, value));
        vec![
            (taken && length == 2_049, "put: a value of 2,049 bytes is taken", "receive: a value of 2,049 bytes is taken"),
            (taken && length == 3_072, "put: a value of 3,072 bytes is taken", "receive: a value of 3,072 bytes is taken"),
            (self.code == 9 && length == 3_073 && setpoints.is_some_and(|n| n <= 400), "put: 9 for 3,073 bytes", "receive: 9 for 3,073 bytes"),
            (taken && setpoints == Some(400), "put: 400 setpoints are taken", "receive: 400 setpoints are taken"),
            (self.code == 9 && length <= 3_072 && setpoints == Some(401), "put: 9 for 401 setpoints", "receive: 9 for 401 setpoints"),
            (
                taken && short && setpoints > Some(200),
                "put: more than 200 setpoints in at most 2,048 bytes are taken",
                "receive: more than 200 setpoints in at most 2,048 bytes are taken",
            ),
            (
                taken && !short && setpoints > Some(200),
                "put: more than 200 setpoints in more than 2,048 bytes are taken",
                "receive: more than 200 setpoints in more than 2,048 bytes are taken",
            ),
            (taken && late, "put: a value that is higher only after 2,048 bytes is taken", "receive: a value that is higher only after 2,048 bytes is taken"),
            (
                self.code == 10 && late,
                "put: 10 for a value that is lower only after 2,048 bytes",
                "receive: 10 for a value that is lower only after 2,048 bytes",
            ),
            (taken && !short && held == value, "put: a held value over 2,048 bytes is taken again", "receive: a held value over 2,048 bytes is taken again"),
        ]
    }
}
