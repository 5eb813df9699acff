//! What the calls came to: how often each entry point gave each number, and what has to come up in a run that is long enough.

use crate::answer::{view_numbers, Answer};
use crate::calls::Call;
use crate::doubts;
use crate::formats;
use crate::longer;
use crate::twin::Twin;
use starterbell_model::answers::Sender;
use starterbell_model::contacts;
use starterbell_model::message::{self, Message, View};
use starterbell_model::node::Side;
use starterbell_model::peer::first_usable;
use starterbell_model::place::place_of;
use starterbell_model::recipe::{self, differences, is_leaper, outranks};
use starterbell_model::records;
use starterbell_model::steps::Step;
use starterbell_model::wire::{fields, read_varint, Span};
use std::collections::BTreeMap;

/// Each entry point, with the numbers that RULES, Refusals, and the comments of crates/host allow it; `receive` by the connection's side.
const REACHABLE: [(&str, &[u32]); 23] = [
    ("start", &[SHORT, 12, 64]),
    ("open", &[SHORT, 12, 64]),
    ("receive, serving", &[SHORT, 0, 1, 2, 3, 4, 5, 6, 7, 8, 9, 10, 11, 12, 64, 65]),
    ("receive, asking", &[SHORT, 0, 1, 2, 3, 4, 5, 6, 12, 64, 66]),
    ("end", &[SHORT, 0, 2, 19, 64]),
    ("seen", &[SHORT, 0, 12, 13, 14, 18, 64, 65]),
    ("settle", &[SHORT, 0, 12, 15, 18, 64, 65]),
    ("remove", &[SHORT, 0, 12, 15, 64]),
    ("doubt", &[SHORT, 0, 12, 15, 64]),
    ("nearest", &[SHORT, 0, 8, 12, 64]),
    ("put", &[0, 8, 9, 10, 11, 64]),
    ("find", &[0, 64, 65]),
    ("read", &[4, 5, 6, 64]),
    ("peer", &[64, 65]),
    ("peer_address", &[64, 65]),
    ("write", &[1, 21, 64]),
    ("lookup_start", &[SHORT, 0, 8, 12, 20, 64, 67]),
    ("lookup_next", &[SHORT, 0, 65, 66, 67, 68]),
    ("lookup_reply", &[SHORT, 0, 12, 16, 17, 64, 67, 68]),
    ("lookup_failure", &[SHORT, 0, 12, 16, 17, 64, 67, 68]),
    ("recipe_read", &[9, 64]),
    ("recipe_setpoints", &[9, 64]),
    ("recipe_write", &[9, 64]),
];

/// Beside the numbers: what a long run has to meet too, and after that what crate::doubts, crate::longer and crate::formats have.
const MET: [&str; 48] = [
    "receive: the sender moved",
    "receive: the sender joined",
    "receive: the sender's bucket is full",
    "receive: no slot for the sender",
    "receive: a client is not seen",
    "receive: 0 for contacts",
    "receive: 0 for records",
    "receive: 0 for the connection",
    "receive: a body of 16,384 bytes",
    "reply to PUT_VALUE",
    "reply to GET_VALUE",
    "reply to FIND_NODE",
    "reply to PING",
    "reply by a box with odd addresses",
    "reply to a sender with odd addresses that asks for itself",
    "receive: a sender with odd addresses joined",
    "receive: a sender with odd addresses moved, some of them usable",
    "receive: a sender with odd addresses moved, none of them usable",
    "receive: a put in two record fields is taken",
    "reply: 0 for the view",
    "reply: 0 for a view of the last record field alone",
    "reply: the view of a record in two fields is taken",
    "reply: 0 for the lookup",
    "reply: 256 candidates",
    "seen: 20 in the bucket of a joined one",
    "contacts: 5,120 slots or more",
    "records: 256 slots or more",
    "write: a body of 16,300 bytes or more",
    "read: a record's key and value from two fields",
    "read: 5 for a record that is well formed only if joined",
    "out: too short for the numbers",
    "contacts: no slot at all",
    "put: trims exactly 5,000 up are taken",
    "receive: trims exactly 5,000 up are taken",
    "put: trims exactly 5,000 down are taken",
    "receive: trims exactly 5,000 down are taken",
    "put: 9 for a leaper",
    "receive: 9 for a leaper",
    "put: 9 for the bytes of a held leaper",
    "receive: 9 for the bytes of a held leaper",
    "put: 9 for a leaper above a held one",
    "receive: 9 for a leaper above a held one",
    "put: 10 for a recipe below a held leaper",
    "receive: 10 for a recipe below a held leaper",
    "put: a recipe above a held leaper is taken",
    "receive: a recipe above a held leaper is taken",
    "find: a held leaper is found",
    "receive: GET_VALUE is served a held leaper",
];

/// Stands for 0 where the memory of the box, connection or lookup is too short.
const SHORT: u32 = 99;

/// What there was before a call.
pub struct Before {
    pub contacts: Vec<u8>,
    pub records: Vec<u8>,
}

#[derive(Clone, Debug, Default)]
pub struct Coverage {
    counts: BTreeMap<(usize, u32), u64>,
    met: BTreeMap<&'static str, u64>,
    pub cuttings: u64,
}

fn entry(step: &Step, twin: &Twin) -> usize {
    match step {
        Step::Box { .. } => 0,
        Step::Open { .. } => 1,
        Step::Receive { line, .. } => 2 + usize::from(twin.world.lines[*line].conn.side == Side::Asking),
        Step::End { .. } => 4,
        Step::Seen { .. } => 5,
        Step::Settle { .. } => 6,
        Step::Remove { .. } => 7,
        Step::Doubt { .. } => 8,
        Step::Nearest { .. } => 9,
        Step::Put { .. } => 10,
        Step::Find { .. } => 11,
        Step::Read { .. } => 12,
        Step::Peer { .. } => 13,
        Step::Address { .. } => 14,
        Step::Write { .. } => 15,
        Step::Start { .. } => 16,
        Step::Next { .. } => 17,
        Step::Reply { .. } => 18,
        Step::Failure { .. } => 19,
        Step::RecipeRead { .. } => 20,
        Step::RecipeSetpoints { .. } => 21,
        Step::RecipeWrite { .. } => 22,
        Step::Poke { .. } | Step::Lend { .. } => unreachable!("no call"),
    }
}

impl Coverage {
    /// A call that was made, what it gave, and what there was before it and is after it.
    pub fn add(&mut self, before: &Before, twin: &Twin, call: &Call, answer: &Answer) {
        let code = if call.is_short() { SHORT } else { answer.code };
        *self.counts.entry((entry(&call.step, twin), code)).or_default() += 1;
        if answer.numbers.len() > call.out.len() {
            self.meet("out: too short for the numbers");
        }
        if !call.is_short() {
            self.note(twin, call, answer);
            self.note_leaps(first(&before.records, call.lent.records), &call.step, answer);
            doubts::met(first(&before.contacts, call.lent.contacts), twin, call, answer).into_iter().for_each(|what| self.meet(what));
            longer::met(first(&before.records, call.lent.records), twin, call, answer).into_iter().for_each(|what| self.meet(what));
            formats::met(first(&before.records, call.lent.records), twin, call, answer).into_iter().for_each(|what| self.meet(what));
        }
    }

    fn meet(&mut self, what: &'static str) {
        debug_assert!(all_met().any(|w| w == what));
        *self.met.entry(what).or_default() += 1;
    }

    fn note(&mut self, twin: &Twin, call: &Call, answer: &Answer) {
        let world = &twin.world;
        match &call.step {
            Step::Receive { line, piece } => self.note_receive(twin, *line, piece, answer),
            Step::Reply { lookup, body, .. } => self.note_heard(twin, *lookup, body, &call.view, answer),
            Step::Seen { .. } if answer.code == 65 && world.contacts[616 * answer.numbers[0] as usize] == 20 => {
                self.meet("seen: 20 in the bucket of a joined one")
            }
            Step::Seen { .. } if answer.code == 14 && contacts::slots(&world.contacts) == 0 => self.meet("contacts: no slot at all"),
            Step::Seen { .. } if answer.code >= 64 && contacts::slots(&world.contacts) == 5_120 => self.meet("contacts: 5,120 slots or more"),
            Step::Put { .. } if answer.code != 0 && records::slots(&world.records) == 256 => self.meet("records: 256 slots or more"),
            Step::Read { body } => self.note_read(body, answer),
            Step::Write { .. } if answer.code == 64 && answer.numbers[0] >= 16_300 => self.meet("write: a body of 16,300 bytes or more"),
            _ => {}
        }
    }

    fn note_read(&mut self, body: &[u8], answer: &Answer) {
        if is_split(body) && answer.code == 64 {
            self.meet("read: a record's key and value from two fields");
        }
        let occurrences = message::occurrences(body);
        let joined = occurrences.iter().flat_map(|o| o.of(body)).copied().collect::<Vec<u8>>();
        let apart = occurrences.iter().all(|o| fields(body, *o).is_some());
        if answer.code == 5 && !apart && fields(&joined, Span { at: 0, len: joined.len() }).is_some() {
            self.meet("read: 5 for a record that is well formed only if joined");
        }
    }

    fn note_heard(&mut self, twin: &Twin, lookup: usize, body: &[u8], view: &[u64], answer: &Answer) {
        let lookup = &twin.world.lookups[lookup];
        let last = message::occurrences(body).last().and_then(|last| message::record_view(body, &[*last]));
        match answer.code {
            0 if !lookup.in_form() => self.meet("reply: 0 for the lookup"),
            0 if message::read(body).is_ok_and(|read| view == view_numbers(&View { record: last, ..read })) => {
                self.meet("reply: 0 for a view of the last record field alone")
            }
            0 => self.meet("reply: 0 for the view"),
            64.. if lookup.candidates.len() == 256 => self.meet("reply: 256 candidates"),
            64.. if is_split(body) => self.meet("reply: the view of a record in two fields is taken"),
            _ => {}
        }
    }

    fn note_receive(&mut self, twin: &Twin, line: usize, piece: &[u8], answer: &Answer) {
        let world = &twin.world;
        if answer.code == 0 {
            let contacts_fit = contacts::in_form(&world.contacts, &world.me.place);
            let what = match (contacts_fit, records::in_form(&world.records), world.lines[line].conn.in_form(&world.me.place)) {
                (false, _, _) => "receive: 0 for contacts",
                (true, false, _) => "receive: 0 for records",
                (true, true, false) => "receive: 0 for the connection",
                // something was lent in part
                (true, true, true) => return,
            };
            self.meet(what);
        }
        if answer.code == 66 && answer.numbers[1] == 16_384 {
            self.meet("receive: a body of 16,384 bytes");
        }
        if answer.code == 65 {
            self.note_reply(twin, answer);
            let body = whole_body(piece, &answer.numbers);
            self.note_sender(&world.lines[line].conn.peer, body, answer);
            if is_split(body) && message::read(body).is_ok_and(|view| view.kind == message::PUT_VALUE) {
                self.meet("receive: a put in two record fields is taken");
            }
        }
    }

    /// Request ix: leapers that are offered, and what is offered or asked for where one was held; of a peer's, what a piece had whole.
    fn note_leaps(&mut self, records: &[u8], step: &Step, answer: &Answer) {
        let held = |key: &[u8]| records::find(records, key).ok().flatten().map(|found| found.value).filter(|value| is_leaper(value));
        match step {
            Step::Find { key } if answer.code == 64 && held(key).is_some() => self.meet("find: a held leaper is found"),
            Step::Put { key, value } => self.note_put(true, held(key), value, answer.code),
            Step::Receive { piece, .. } => match message::decode(whole_body(piece, &answer.numbers)) {
                Ok(Message { kind: message::PUT_VALUE, record: Some(record), .. }) => self.note_put(false, held(&record.key), &record.value, answer.code),
                Ok(Message { kind: message::GET_VALUE, key, .. }) if answer.code == 65 && held(&key).is_some() => {
                    self.meet("receive: GET_VALUE is served a held leaper")
                }
                _ => {}
            },
            _ => {}
        }
    }

    /// A put, the host's own or a peer's, and the leaper that was held under its key, if one was.
    fn note_put(&mut self, own: bool, held: Option<Vec<u8>>, value: &[u8], code: u32) {
        let taken = code == if own { 64 } else { 65 };
        let mut meet = |put: &'static str, receive: &'static str| self.meet(if own { put } else { receive });
        match held {
            Some(held) if code == 9 && held == value => meet("put: 9 for the bytes of a held leaper", "receive: 9 for the bytes of a held leaper"),
            Some(held) if code == 9 && is_leaper(value) && outranks(value, &held) => {
                meet("put: 9 for a leaper above a held one", "receive: 9 for a leaper above a held one")
            }
            Some(_) if code == 10 => meet("put: 10 for a recipe below a held leaper", "receive: 10 for a recipe below a held leaper"),
            Some(_) if taken => meet("put: a recipe above a held leaper is taken", "receive: a recipe above a held leaper is taken"),
            _ if code == 9 && is_leaper(value) => meet("put: 9 for a leaper", "receive: 9 for a leaper"),
            _ => {}
        }
        let by: Vec<i64> = recipe::read(value).ok().filter(|_| taken).map_or(vec![], |recipe| recipe.lists().into_iter().flat_map(differences).collect());
        if by.contains(&5_000) {
            meet("put: trims exactly 5,000 up are taken", "receive: trims exactly 5,000 up are taken");
        }
        if by.contains(&-5_000) {
            meet("put: trims exactly 5,000 down are taken", "receive: trims exactly 5,000 down are taken");
        }
    }

    fn note_reply(&mut self, twin: &Twin, answer: &Answer) {
        let (me, reply) = (&twin.world.me, &twin.world.reply);
        self.meet(match answer.numbers[2] {
            0 => "receive: a client is not seen",
            1 => "receive: the sender moved",
            2 => "receive: the sender joined",
            3 => "receive: the sender's bucket is full",
            _ => "receive: no slot for the sender",
        });
        // after the prefix comes the tag of the type, and the type
        let prefix = reply.iter().position(|b| *b < 0x80).unwrap_or(0) + 1;
        let kind = reply[prefix + 1];
        self.meet(match kind {
            0 => "reply to PUT_VALUE",
            1 => "reply to GET_VALUE",
            4 => "reply to FIND_NODE",
            _ => "reply to PING",
        });
        if kind == 4 && odd(&me.addresses) && reply[..answer.numbers[1] as usize].windows(me.id.len()).any(|w| w == me.id) {
            self.meet("reply by a box with odd addresses");
        }
    }

    /// A sender with addresses that no open gives.
    fn note_sender(&mut self, sender: &Sender, body: &[u8], answer: &Answer) {
        if !odd(&sender.addresses) {
            return;
        }
        match (answer.numbers[2], first_usable(&sender.addresses).is_empty()) {
            (1, false) => self.meet("receive: a sender with odd addresses moved, some of them usable"),
            (1, true) => self.meet("receive: a sender with odd addresses moved, none of them usable"),
            (2, _) => self.meet("receive: a sender with odd addresses joined"),
            _ => {}
        }
        // one that joined wasn't held
        let asks = message::decode(body).is_ok_and(|m| m.kind == message::FIND_NODE && place_of(&m.key) == sender.place);
        if asks && answer.numbers[2] == 2 {
            self.meet("reply to a sender with odd addresses that asks for itself");
        }
    }

    pub fn join(&mut self, other: &Coverage) {
        other.counts.iter().for_each(|(k, n)| *self.counts.entry(*k).or_default() += n);
        other.met.iter().for_each(|(k, n)| *self.met.entry(k).or_default() += n);
        self.cuttings += other.cuttings;
    }

    /// What came up fewer than `least` times though it can, and what came up though it can't.
    pub fn lacks(&self, least: u64) -> Vec<String> {
        let mut lacks = Vec::new();
        for (i, (name, codes)) in REACHABLE.iter().enumerate() {
            let count = |code: u32| self.counts.get(&(i, code)).copied().unwrap_or(0);
            lacks.extend(codes.iter().filter(|c| count(**c) < least).map(|c| format!("{name} gave {} only {} times", title(*c), count(*c))));
            let strange = self.counts.keys().filter(|(entry, code)| *entry == i && !codes.contains(code));
            lacks.extend(strange.map(|(_, code)| format!("{name} gave {}, which it can't", title(*code))));
        }
        let met = |what: &str| self.met.get(what).copied().unwrap_or(0);
        lacks.extend(all_met().filter(|w| met(w) < least).map(|w| format!("'{w}' came up only {} times", met(w))));
        lacks
    }

    /// The table of counts.
    pub fn print(&self) {
        for (i, (name, codes)) in REACHABLE.iter().enumerate() {
            let cell = |code: &u32| format!("{}: {}", title(*code), self.counts.get(&(i, *code)).copied().unwrap_or(0));
            println!("{name:17} {}", codes.iter().map(cell).collect::<Vec<_>>().join(", "));
        }
        for what in all_met() {
            println!("  {what}: {}", self.met.get(what).copied().unwrap_or(0));
        }
        println!("streams cut in other ways: {}", self.cuttings);
    }
}

/// Whether there are more than four addresses, or one that isn't usable.
fn odd(addresses: &[Vec<u8>]) -> bool {
    first_usable(addresses) != addresses
}

/// The first bytes, at most so many.
fn first(bytes: &[u8], most: usize) -> &[u8] {
    &bytes[..bytes.len().min(most)]
}

fn all_met() -> impl Iterator<Item = &'static str> {
    MET.into_iter().chain(doubts::MET).chain(longer::MET).chain(formats::all())
}

/// The body of the message that was taken, if the piece had it whole, from its prefix on; else nothing. `numbers` are those that the receive gave.
pub fn whole_body<'a>(piece: &'a [u8], numbers: &[u64]) -> &'a [u8] {
    let taken = &piece[..numbers[0] as usize];
    match read_varint(piece, 0, piece.len()) {
        Some((n, at)) if at <= taken.len() && n == (taken.len() - at) as u64 => &taken[at..],
        _ => &[],
    }
}

/// Whether a body reads, and its record's key and value are in different occurrences.
fn is_split(body: &[u8]) -> bool {
    let holder = |at: usize| message::occurrences(body).iter().position(|o| o.at <= at && at <= o.end());
    let record = message::read(body).ok().and_then(|view| view.record);
    record.is_some_and(|r| matches!((holder(r.key.at), holder(r.value.at)), (Some(key), Some(value)) if key != value))
}

fn title(code: u32) -> String {
    if code == SHORT {
        "short".to_string()
    } else {
        code.to_string()
    }
}
