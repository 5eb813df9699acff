//! Each refusal number, at its limits and in its order.

use starterbell_model::contacts::{self, Contact, Newcomer, Seen, Settled};
use starterbell_model::gen::{place_in, Rng};
use starterbell_model::limits;
use starterbell_model::lookup::{Candidate, Lookup, Mark, Next, Step};
use starterbell_model::message::{self, encode, Message, Peer, Record, View};
use starterbell_model::node::{end, open, receive, Answer, Conn, Lent, Side};
use starterbell_model::peer::{address_list, addresses_of, usable, Me, Mode};
use starterbell_model::place::{bucket, distance, place_of};
use starterbell_model::recipe::{self, Recipe, Setpoint};
use starterbell_model::records;
use starterbell_model::stream::Framing;
use starterbell_model::wire::Span;
use starterbell_model::writer::{framed, peer_list, peers_of, write};
use starterbell_model::Refusal;

fn me() -> Me {
    Me::start(b"this box", &[]).0
}

/// A receive with all that it is lent, to be spoiled one by one.
struct Bench {
    me: Me,
    conn: Conn,
    contacts: Vec<u8>,
    records: Vec<u8>,
    buffer: Vec<u8>,
    reply: Vec<u8>,
}

impl Bench {
    fn new(mode: Mode, side: Side) -> Bench {
        let me = me();
        let conn = open(&me, b"a bench", mode, &[], side).0;
        Bench {
            me,
            conn,
            contacts: vec![0; 3 * limits::CONTACT_SLOT],
            records: vec![0; 2 * limits::RECORD_SLOT],
            buffer: vec![0xee; limits::BODY],
            reply: vec![0xdd; limits::REPLY],
        }
    }

    fn hand(&mut self, piece: &[u8]) -> (usize, Answer) {
        let mut lent = Lent { contacts: &mut self.contacts, records: &mut self.records, buffer: &mut self.buffer, reply: &mut self.reply };
        let got = receive(&self.me, &mut self.conn, &mut lent, piece);
        (got.taken, got.answer)
    }

    /// A refusal's number and the bytes taken. Nothing else has changed but the receive buffer and the connection.
    fn refused(&mut self, piece: &[u8]) -> (u8, usize) {
        let before = (self.contacts.clone(), self.records.clone(), self.reply.clone());
        let (taken, answer) = self.hand(piece);
        assert_eq!(before, (self.contacts.clone(), self.records.clone(), self.reply.clone()));
        let Answer::Refused(refusal) = answer else { panic!("{answer:?}") };
        (refusal.number(), taken)
    }

    fn is_shut(&self) -> bool {
        self.conn.framing == Framing::Shut
    }
}

fn request(m: &Message) -> Vec<u8> {
    framed(&encode(m))
}

fn ping() -> Vec<u8> {
    vec![2, 8, 5]
}

fn find(key: &[u8]) -> Vec<u8> {
    request(&Message { kind: 4, key: key.to_vec(), ..Message::default() })
}

fn put(key: &[u8], record_key: &[u8], value: &[u8]) -> Vec<u8> {
    let record = Some(Record { key: record_key.to_vec(), value: value.to_vec() });
    request(&Message { kind: 0, key: key.to_vec(), record, ..Message::default() })
}

fn value(sequence: u64, note: &[u8]) -> Vec<u8> {
    recipe::write(&Recipe { note: note.to_vec(), sequence, ..Recipe::default() })
}

fn held(rank: usize, id: &[u8]) -> Vec<u8> {
    contacts::slot_bytes(&Contact { rank, doubtful: false, place: place_of(id), id: id.to_vec(), addresses: vec![vec![1]] })
}

#[test]
fn refusal_0_of_contacts() {
    let ours = me().place;
    let one = |change: &dyn Fn(&mut Vec<u8>)| {
        let mut table = held(0, b"x");
        table.extend(vec![0; limits::CONTACT_SLOT]);
        change(&mut table);
        contacts::in_form(&table, &ours)
    };
    assert!(one(&|_| {}));
    for (at, good, bad) in [
        (0, vec![0, 1], vec![2, 20, 21, 255]),
        (1, vec![0, 1], vec![2, 3, 128, 255]),
        (2, vec![1, 64], vec![0, 65, 255]),
        (3, vec![0, 1], vec![2, 5, 255]),
        (4, vec![1, 128], vec![0, 129, 255]),
        (5, vec![0, 1, 255], vec![]),
        (39, vec![0, 1], vec![]),
        (615, vec![1], vec![]),
    ] {
        assert!(good.iter().all(|b| one(&|t| t[at] = *b)), "byte {at}");
        assert!(bad.iter().all(|b| !one(&|t| t[at] = *b)), "byte {at}");
    }
    assert!(!one(&|t| t[8..40].copy_from_slice(&ours)), "our place");
    assert!(!one(&|t| t.copy_within(..limits::CONTACT_SLOT, limits::CONTACT_SLOT)), "a place twice");
    assert!(one(&|t| t[limits::CONTACT_SLOT + 1..].fill(0xff)), "a free slot has no form");
    assert!(one(&|t| t.extend(vec![0xff; 615])), "a part of a slot isn't looked at");
}

#[test]
fn slots_past_the_last_are_not_looked_at() {
    let mut table = vec![0; 5_120 * limits::CONTACT_SLOT];
    table.extend(vec![0xff; 2 * limits::CONTACT_SLOT]);
    assert!(contacts::in_form(&table, &me().place));
    assert_eq!(contacts::slots(&table), 5_120);
    let mut store = vec![0; 256 * limits::RECORD_SLOT];
    store.extend(vec![0xff; limits::RECORD_SLOT]);
    assert!(records::in_form(&store));
    store.truncate(255 * limits::RECORD_SLOT + 5);
    assert_eq!(records::slots(&store), 255);
}

#[test]
fn refusal_0_of_ranks() {
    let me = me();
    let mut rng = Rng::new(3);
    let mut table = |ranks: &[usize], number: usize| -> Vec<u8> {
        let contact = |(rank, place)| contacts::slot_bytes(&Contact { rank, doubtful: rank == 1, place, id: vec![1], addresses: vec![] });
        ranks.iter().map(|r| (*r, place_in(&mut rng, &me.place, number))).flat_map(contact).collect()
    };
    for number in [0, 7, 100, 240] {
        assert!(contacts::in_form(&table(&[2, 0, 1], number), &me.place));
        assert!(!contacts::in_form(&table(&[2, 0], number), &me.place), "a gap");
        assert!(!contacts::in_form(&table(&[0, 1, 1], number), &me.place), "a tie");
        assert!(contacts::in_form(&table(&(0..20).collect::<Vec<_>>(), number), &me.place));
        assert!(!contacts::in_form(&table(&(0..21).collect::<Vec<_>>(), number), &me.place), "21 in a bucket");
    }
    let both = [table(&[0, 1], 3), table(&[1, 0], 4)].concat();
    assert!(contacts::in_form(&both, &me.place));
}

#[test]
fn refusal_0_of_records() {
    let one = |change: &dyn Fn(&mut Vec<u8>)| {
        let mut store = records::slot_bytes(b"/wind/e", &value(1, b""));
        store.extend(vec![0; limits::RECORD_SLOT]);
        change(&mut store);
        records::in_form(&store)
    };
    assert!(one(&|_| {}));
    for (at, good, bad) in [
        (0, vec![0, 7, 8, 128], vec![1, 6, 129, 255]),
        (1, vec![1, 255], vec![]),
        (2, vec![16, 17, 255], vec![0, 15]),
        (3, vec![0, 7, 8, 11], vec![12, 13, 255]),
        (4, vec![9], vec![]),
        (8, vec![b'/'], vec![b'.', 0]),
        (13, vec![b'/'], vec![b'w']),
        (14, vec![0, 255], vec![]),
    ] {
        assert!(good.iter().all(|b| one(&|s| s[at] = *b)), "byte {at}");
        assert!(bad.iter().all(|b| !one(&|s| s[at] = *b)), "byte {at}");
    }
    for (length, good) in [(15u16, false), (16, true), (2_048, true), (2_049, true), (3_071, true), (3_072, true), (3_073, false), (3_328, false)] {
        assert_eq!(one(&|s| s[2..4].copy_from_slice(&length.to_le_bytes())), good, "{length}");
    }
    assert!(one(&|s| s[2..4].copy_from_slice(&[0x00, 0x0c])) && !one(&|s| s[2..4].copy_from_slice(&[0x01, 0x0c])), "3,072 and 3,073, low byte first");
    assert!(!one(&|s| s.copy_within(..limits::RECORD_SLOT, limits::RECORD_SLOT)), "a key twice");
    assert_eq!(records::find(&records::slot_bytes(b"/pk/eeee", &value(1, b"")), b"x"), Err(Refusal::OutOfForm));
}

#[test]
fn refusals_0_to_2_in_order() {
    for side in [Side::Serving, Side::Asking] {
        let mut bench = Bench::new(Mode::Server, side);
        bench.conn.framing = Framing::Shut;
        assert_eq!(bench.refused(&ping()), (2, 0));
        assert_eq!(bench.refused(&[]), (2, 0));
        bench.reply.pop();
        assert_eq!(bench.refused(&ping()), (1, 0));
        bench.reply.push(0);
        bench.buffer.pop();
        assert_eq!(bench.refused(&[]), (1, 0));
        bench.contacts[0] = 2;
        assert_eq!(bench.refused(&ping()), (0, 0));
        bench.contacts[0] = 0;
        bench.records[0] = 1;
        assert_eq!(bench.refused(&[]), (0, 0));
    }
}

#[test]
fn refusal_0_of_connections() {
    let mut bench = Bench::new(Mode::Server, Side::Serving);
    let good = bench.conn.clone();
    let framings = [
        (Framing::Prefix(vec![0x80, 0xff]), true),
        (Framing::Prefix(vec![0x7f]), false),
        (Framing::Prefix(vec![0x80; 3]), false),
        (Framing::Body { length: 16_384, have: 16_383 }, true),
        (Framing::Body { length: 16_385, have: 0 }, false),
        (Framing::Body { length: 5, have: 5 }, false),
        (Framing::Body { length: 0, have: 0 }, false),
    ];
    for (framing, stands) in framings {
        bench.conn.framing = framing.clone();
        let (taken, answer) = bench.hand(&[]);
        assert_eq!((taken, answer == Answer::More), (0, stands), "{framing:?}");
        let ended = end(&bench.me, &mut bench.conn);
        assert_eq!(ended, Err(if stands { Refusal::EndedInside } else { Refusal::OutOfForm }));
        assert_eq!(bench.is_shut(), stands);
    }
    bench.conn = good.clone();
    bench.conn.peer.place = bench.me.place;
    assert_eq!(bench.refused(&ping()), (0, 0));
    bench.conn.framing = Framing::Shut;
    assert_eq!(bench.refused(&ping()), (2, 0), "a shut one has no form");
    bench.conn = good;
    bench.conn.peer.id = vec![1; 65];
    assert_eq!(bench.refused(&ping()), (0, 0));
}

#[test]
fn our_own_id_is_judged_after_0_to_2() {
    let mut bench = Bench::new(Mode::Server, Side::Serving);
    bench.me.id = vec![];
    assert_eq!(bench.refused(&[0x80, 0]), (12, 0));
    assert!(!bench.is_shut());
    assert_eq!(end(&bench.me, &mut bench.conn), Ok(()));
    assert_eq!(bench.refused(&[0x80, 0]), (2, 0));
    let nobody = &bench.me;
    assert_eq!(open(nobody, b"x", Mode::Server, &[], Side::Serving).1, Some(Refusal::BadPeer));
    assert_eq!(contacts::doubt(&mut [], nobody, b"x"), Err(Refusal::BadPeer));
    assert_eq!(contacts::doubt(&mut [0xff; limits::CONTACT_SLOT], nobody, b"x"), Err(Refusal::OutOfForm));
    assert_eq!(contacts::nearest(&[], nobody, &[]), Err(Refusal::BreaksRules));
    assert_eq!(contacts::nearest(&[], nobody, &[1]), Err(Refusal::BadPeer));
    assert_eq!(Lookup::start(&[], nobody, &[], 0).1, Step::Refused(Refusal::BreaksRules));
    assert_eq!(Lookup::start(&[], nobody, &[1], 0).1, Step::Refused(Refusal::BadPeer));
    assert_eq!(Lookup::start(&[], &me(), &[1], 0).1, Step::Refused(Refusal::BadConcurrency));
    for (id, refusal) in [(vec![], Some(Refusal::BadPeer)), (vec![1; 64], None), (vec![1; 65], Some(Refusal::BadPeer))] {
        assert_eq!(Me::start(&id, &[]).1, refusal);
    }
}

#[test]
fn refusals_3_and_4_leave_the_buffer_alone() {
    for (prefix, number, taken) in [
        (vec![0x81, 0, 7], 3, 2),
        (vec![0x80, 0x80, 0, 7], 3, 3),
        (vec![0x81, 0x80, 1, 7], 4, 3),
        (vec![0xff, 0xff, 0x7f, 7], 4, 3),
        (vec![0x80, 0x80, 0x80, 7], 4, 3),
    ] {
        for side in [Side::Serving, Side::Asking] {
            let mut bench = Bench::new(Mode::Server, side);
            assert_eq!(bench.refused(&prefix), (number, taken));
            assert_eq!(bench.buffer, vec![0xee; limits::BODY]);
            assert!(bench.is_shut());
            assert_eq!(bench.refused(&[]), (2, 0));
        }
    }
    assert_eq!(message::read(&vec![0; 16_385]), Err(Refusal::TooLong));
    assert_eq!(message::read(&vec![0; 16_384]), Err(Refusal::Malformed));
}

#[test]
fn refusal_5() {
    let bad: &[&[u8]] = &[
        &[0x0b],
        &[0x0c],
        &[0x0e, 0],
        &[0x0f],
        &[0x00, 0],
        &[0x02, 0],
        &[0x05, 0, 0, 0, 0],
        &[0x08],
        &[0x08, 0x80],
        &[0x12, 1],
        &[0x09, 1, 2, 3, 4, 5, 6, 7],
        &[0x0d, 1, 2, 3],
        &[0x88, 0x80, 0x80, 0x80, 0x80, 0x00, 5],
        &[0x88, 0x80, 0x80, 0x80, 0x10, 5],
        &[0x08, 0xff, 0xff, 0xff, 0xff, 0xff, 0xff, 0xff, 0xff, 0xff, 0x02],
        &[0x08, 0x80, 0x80, 0x80, 0x80, 0x80, 0x80, 0x80, 0x80, 0x80, 0x80, 0x00],
        &[0x12, 0xff, 0xff, 0xff, 0xff, 0xff, 0xff, 0xff, 0xff, 0xff, 0x01],
        &[0x1a, 1, 0x0b],
        &[0x1a, 1, 0x0b, 0x1a, 0],
        &[0x42, 2, 0x0a, 1],
        &[0x4a, 1, 0x80],
        &[0x42, 2, 0x0a, 1, 7],
        &[0x08, 9, 0x0b],
    ];
    for body in bad {
        assert_eq!(message::read(body), Err(Refusal::Malformed), "{body:x?}");
        let mut bench = Bench::new(Mode::Server, Side::Serving);
        assert_eq!(bench.refused(&[framed(body), vec![9]].concat()), (5, body.len() + 1));
        assert_eq!(bench.buffer[..body.len()], **body, "the body stays in the receive buffer");
    }
    let good: &[&[u8]] = &[
        &[0x88, 0x80, 0x80, 0x80, 0x00, 0x05],
        &[0xf8, 0xff, 0xff, 0xff, 0x0f, 5],
        &[0x08, 0x85, 0x80, 0x80, 0x80, 0x80, 0x80, 0x80, 0x80, 0x80, 0x00],
        &[0x32, 1, 0x0b],
        &[0x52, 1, 0x0b],
        &[0x1a, 3, 0x2a, 1, 0x0b],
        &[0x0a, 1, 0x0b],
        &[0x09, 1, 2, 3, 4, 5, 6, 7, 8],
        &[0x0d, 1, 2, 3, 4],
        &[0x92, 0x80, 0x80, 0x80, 0x00, 0x80, 0x80, 0x80, 0x80, 0x80, 0x80, 0x00],
        &[0x50, 0xff, 0xff, 0xff, 0xff, 0xff, 0xff, 0xff, 0xff, 0xff, 0x01],
    ];
    for body in good {
        assert!(message::read(body).is_ok(), "{body:x?}");
    }
}

#[test]
fn refusals_6_and_7() {
    assert_eq!(message::read(&[0x08, 6]), Err(Refusal::UnknownType));
    assert_eq!(message::read(&[0x08, 0x80, 0x80, 0x80, 0x80, 0x10]), Err(Refusal::UnknownType), "2^32 isn't 0");
    assert_eq!(message::read(&[0x08, 6, 0x08, 5]).map(|v| v.kind), Ok(5), "only the last is judged");
    assert_eq!(message::read(&[0x08, 5, 0x08, 6]), Err(Refusal::UnknownType));
    for kind in [2, 3] {
        let body = [0x08, kind];
        assert_eq!(Bench::new(Mode::Server, Side::Serving).refused(&framed(&body)), (7, 3));
        let (taken, answer) = Bench::new(Mode::Server, Side::Asking).hand(&framed(&body));
        let view = View { kind: kind.into(), key: Span::default(), record: None };
        assert_eq!((taken, answer), (3, Answer::Given { length: 2, view }), "the asking side has no 7");
    }
    assert_eq!(Bench::new(Mode::Server, Side::Asking).refused(&framed(&[0x08, 6])), (6, 3));
    assert_eq!(Bench::new(Mode::Server, Side::Asking).refused(&framed(&[0x0b])), (5, 2));
}

#[test]
fn refusal_8_of_keys() {
    for kind in [1, 4] {
        for (length, good) in [(0, false), (1, true), (128, true), (129, false), (5_000, false)] {
            let mut bench = Bench::new(Mode::Server, Side::Serving);
            let asked = request(&Message { kind, key: vec![7; length], ..Message::default() });
            if good {
                let reply = vec![2, 8, kind as u8];
                assert_eq!(bench.hand(&asked), (asked.len(), Answer::Replied { length: 3, sighting: Some(Seen::Joined { slot: 0 }) }));
                assert_eq!((&bench.reply[..3], bench.reply[3]), (&reply[..], 0xdd));
            } else {
                assert_eq!(bench.refused(&asked), (8, asked.len()));
                assert!(bench.is_shut());
            }
        }
    }
}

#[test]
fn refusal_8_of_records() {
    let long = |n: usize| [b"/wind/".to_vec(), vec![b'a'; n]].concat();
    let mut bench = Bench::new(Mode::Server, Side::Serving);
    for (key, record_key) in [
        (long(0), long(0)),
        (long(123), long(123)),
        (b"/wine/e".to_vec(), b"/wine/e".to_vec()),
        (long(1), long(2)),
        (long(1), vec![]),
        (vec![], long(1)),
        (vec![], vec![]),
    ] {
        bench = Bench::new(Mode::Server, Side::Serving);
        assert_eq!(bench.refused(&put(&key, &record_key, b"no recipe")).0, 8, "8 comes before 9");
        assert_eq!(records::put(&mut bench.records, &key, b"no recipe").is_err(), true);
    }
    let none = request(&Message { kind: 0, key: long(1), ..Message::default() });
    assert_eq!(Bench::new(Mode::Server, Side::Serving).refused(&none).0, 8);
    for n in [1, 122] {
        let mut bench = Bench::new(Mode::Client, Side::Serving);
        let asked = put(&long(n), &long(n), &value(1, b"note"));
        assert_eq!(bench.hand(&asked), (asked.len(), Answer::Replied { length: asked.len(), sighting: None }));
        assert_eq!(bench.reply[..asked.len()], asked, "the echo");
        assert_eq!(records::find(&bench.records, &long(n)).unwrap().unwrap().value, value(1, b"note"));
    }
    assert_eq!(bench.records, vec![0; 2 * limits::RECORD_SLOT]);
}

fn trailer(distance: u32, count: u16, format: u16) -> Vec<u8> {
    [&distance.to_le_bytes()[..], &count.to_le_bytes(), &format.to_le_bytes(), &[0; 8]].concat()
}

#[test]
fn refusal_9() {
    let reads = |list: &[u8], distance: u32, count: u16, format: u16| recipe::read(&[list, &trailer(distance, count, format)].concat()).is_ok();
    assert!(reads(&[], 16, 0, 1) && reads(b"note", 16, 0, 1));
    assert!(
        !reads(&[], 15, 0, 1) && !reads(&[], 17, 0, 1) && !reads(&[], 16, 1, 1) && !reads(&[], 16, 0, 0) && !reads(&[], 16, 0, 2) && !reads(&[], 16, 0, 0x101)
    );
    assert!(
        reads(&[0, 0], 18, 1, 1)
            && !reads(&[0, 0], 18, 0, 1)
            && !reads(&[0, 0], 18, 2, 1)
            && !reads(&[0, 0], 17, 1, 1)
            && !reads(&[0, 0], 19, 1, 1)
            && !reads(&[0, 0], u32::MAX, 1, 1)
    );
    assert!(reads(&[9, 0, 0], 18, 1, 1) && !reads(&[9, 0, 0], 19, 1, 1), "note and list");
    assert!(reads(&[0, 0, 1, 0], 20, 2, 1) && !reads(&[1, 0, 1, 0], 20, 2, 1) && !reads(&[1, 0, 0, 0], 20, 2, 1), "strictly rising");
    assert!(reads(&[0xc0, 0x84, 0x3d, 0], 20, 1, 1) && !reads(&[0xc1, 0x84, 0x3d, 0], 20, 1, 1), "turn 1,000,000");
    assert!(reads(&[0, 0xbf, 0xb8, 2], 20, 1, 1) && reads(&[0, 0xc0, 0xb8, 2], 20, 1, 1) && !reads(&[0, 0xc1, 0xb8, 2], 20, 1, 1), "trims of 20,000");
    assert!(!reads(&[0x80, 0, 0], 19, 1, 1) && !reads(&[0, 0x80, 0], 19, 1, 1) && !reads(&[0, 0x81, 0x80, 0], 20, 1, 1), "minimal");
    assert!(!reads(&[0x80], 17, 1, 1) && !reads(&[0], 17, 1, 1) && !reads(&[0, 0x80], 18, 1, 1), "inside the room");
    assert!(!reads(&[0xff; 12], 28, 1, 1), "a varint without end");
}

/// Offers a value, typed and sent: taken by both, held, found, served and echoed to its last byte; or refused by both with 9, and nothing has changed.
fn typed_and_sent(value: &[u8], good: bool) {
    let (key, mut bench) = (b"/wind/e", Bench::new(Mode::Client, Side::Serving));
    let (asked, mut typed) = (put(key, key, value), bench.records.clone());
    assert_eq!(records::put(&mut typed, key, value).err(), if good { None } else { Some(Refusal::BrokenRecipe) });
    if !good {
        assert_eq!((bench.refused(&asked), bench.is_shut(), bench.records), ((9, asked.len()), true, typed));
        return;
    }
    assert_eq!(bench.hand(&asked), (asked.len(), Answer::Replied { length: asked.len(), sighting: None }));
    assert_eq!((&bench.reply[..asked.len()], &bench.records), (&asked[..], &typed), "the echo, and what is held");
    assert_eq!(records::find(&typed, key), Ok(Some(records::Found { slot: 0, value: value.to_vec() })));
    bench.hand(&request(&Message { kind: 1, key: key.to_vec(), ..Message::default() }));
    let served = request(&Message { kind: 1, record: Some(Record { key: key.to_vec(), value: value.to_vec() }), ..Message::default() });
    assert_eq!(bench.reply[..served.len()], served);
}

/// Request iii: 3,072 bytes at most, whatever they are.
#[test]
fn refusal_9_of_lengths() {
    let whole = value(1, &(0..4_000).map(|i| (i % 251) as u8).collect::<Vec<_>>());
    for (length, good) in [(0, false), (15, false), (16, true), (2_048, true), (2_049, true), (3_071, true), (3_072, true), (3_073, false), (4_016, false)] {
        typed_and_sent(&whole[whole.len() - length..], good);
    }
}

/// Request iii: 400 setpoints at most, in few bytes and in many.
#[test]
fn refusal_9_of_too_many_setpoints() {
    let of = |n: u64, first: u64, apart: u64, trim: i64| {
        recipe::write(&Recipe { wrap: (0..n).map(|i| Setpoint { turn: first + apart * i, trim }).collect(), ..Recipe::default() })
    };
    for (n, good) in [(200, true), (201, true), (255, true), (256, true), (257, true), (399, true), (400, true), (401, false), (656, false)] {
        typed_and_sent(&of(n, 0, 1, 0), good);
    }
    let longest = of(400, 16_384, 2_000, -20_000);
    assert_eq!(longest.len(), 400 * 6 + 16, "a setpoint has six bytes at most");
    typed_and_sent(&longest, true);
    typed_and_sent(&of(401, 16_384, 2_000, -20_000), false);
    let full = |more: usize| [vec![b'n'; 3_072 - longest.len() + more], longest.clone()].concat();
    typed_and_sent(&full(0), true);
    typed_and_sent(&full(1), false);
    let mut miscounted = of(400, 0, 1, 0);
    let count = miscounted.len() - 12;
    assert_eq!(miscounted[count..count + 2], [0x90, 0x01]);
    miscounted[count + 1] = 0;
    typed_and_sent(&miscounted, false);
}

/// Request iii: of values as long as they may be, every byte counts for rank, and identical ones change nothing.
#[test]
fn long_values_are_ranked_to_their_last_byte() {
    let of = |last: u8| value(7, &[&[b'n'; 3_055][..], &[last]].concat());
    let (low, middle, high) = (of(1), of(2), of(3));
    let mut store = vec![0; limits::RECORD_SLOT];
    assert_eq!(records::put(&mut store, b"/wind/e", &middle), Ok(()));
    let before = store.clone();
    assert_eq!(records::put(&mut store, b"/wind/e", &low), Err(Refusal::Outranked));
    assert_eq!(records::put(&mut store, b"/wind/e", &middle), Ok(()));
    assert_eq!((store == before, store.len(), &store[..8]), (true, 3_208, &[7, 0, 0x00, 0x0c, 0, 0, 0, 0][..]));
    assert_eq!(records::put(&mut store, b"/wind/e", &high), Ok(()));
    assert_eq!(store, records::slot_bytes(b"/wind/e", &high));
    assert_eq!((store[136], &store[136 + 3_056..]), (b'n', &high[3_056..]), "the value fills its room");
}

/// A value with these trims, the last of them at turn 1,000,000.
fn with_trims(trims: &[i64], sequence: u64, note: &[u8]) -> Vec<u8> {
    let turn = |i: usize| if i + 1 == trims.len() { limits::TURN } else { i as u64 };
    let wrap = trims.iter().enumerate().map(|(i, trim)| Setpoint { turn: turn(i), trim: *trim }).collect();
    recipe::write(&Recipe { note: note.to_vec(), wrap, sequence, ..Recipe::default() })
}

/// Request ix: neighbouring trims differ by 5,000 at most.
#[test]
fn refusal_9_of_leaps() {
    let mut worked = vec![0x00, 0x00, 0x01, 0x90, 0x4e, 0x15, 0, 0, 0, 2, 0, 1, 0, 7, 0, 0, 0, 0, 0, 0, 0];
    let trims = |value: &[u8]| recipe::read(value).ok().map(|r| r.wrap.iter().map(|s| s.trim).collect::<Vec<_>>());
    assert_eq!((trims(&worked), recipe::is_leaper(&worked)), (Some(vec![0, 5_000]), false));
    worked[3] = 0x92;
    assert_eq!((trims(&worked), recipe::is_leaper(&worked)), (None, true), "5,001");
    let good: [&[i64]; 8] = [
        &[],
        &[20_000],
        &[-20_000],
        &[-2_500, 2_500],
        &[2_500, -2_500],
        &[-20_000, -15_000, -20_000],
        &[-20_000, -15_000, -10_000, -5_000, 0, 5_000, 10_000, 15_000, 20_000],
        &[20_000, 15_000, 10_000, 5_000, 0],
    ];
    for good in good {
        assert_eq!(trims(&with_trims(good, 1, b"")), Some(good.to_vec()));
    }
    let leaps: [&[i64]; 10] = [
        &[-2_500, 2_501],
        &[2_501, -2_500],
        // 39,999 and 40,000 in zigzag form
        &[-20_000, 20_000],
        &[20_000, -20_000],
        &[0, 5_001, 5_001, 5_001],
        &[0, 0, -5_001, -5_001],
        &[0, 0, 0, 5_001],
        &[0, 5_000, -1],
        &[0, -5_000, 1],
        &[20_000, 15_000, 20_000, 14_999],
    ];
    for leap in leaps {
        let value = with_trims(leap, 1, b"");
        assert_eq!((trims(&value), recipe::is_leaper(&value)), (None, true), "{leap:?}");
        let mut bench = Bench::new(Mode::Server, Side::Serving);
        assert_eq!(records::put(&mut bench.records, b"/wind/e", &value), Err(Refusal::BrokenRecipe));
        let asked = put(b"/wind/e", b"/wind/e", &value);
        assert_eq!((bench.refused(&asked), bench.is_shut()), ((9, asked.len()), true));
    }
    assert!(!recipe::is_leaper(&with_trims(&[0, 20_001], 1, b"")), "it breaks another rule too");
}

/// Request ix: "Records already held stay held and are still served and ranked."
#[test]
fn a_held_leaper() {
    let leaper = |sequence, note: &[u8]| with_trims(&[0, 9_000], sequence, note);
    let held = leaper(7, b"m");
    let offer = |value: &[u8]| {
        let mut bench = Bench::new(Mode::Server, Side::Serving);
        bench.records = records::slot_bytes(b"/wind/e", &held);
        let local = records::put(&mut bench.records.clone(), b"/wind/e", value).err();
        let (_, answer) = bench.hand(&put(b"/wind/e", b"/wind/e", value));
        let remote = if let Answer::Refused(refusal) = answer { Some(refusal) } else { None };
        assert_eq!((remote, bench.is_shut()), (local, local.is_some()));
        let stays = if local.is_some() { &held[..] } else { value };
        assert_eq!(bench.records, records::slot_bytes(b"/wind/e", stays));
        local
    };
    assert_eq!(offer(&held), Some(Refusal::BrokenRecipe), "the same bytes");
    for other in [leaper(6, b"m"), leaper(7, b"a"), leaper(7, b"n"), leaper(8, b"m")] {
        assert_eq!(offer(&other), Some(Refusal::BrokenRecipe));
    }
    for lower in [value(6, b"z"), value(7, b"a")] {
        assert_eq!(offer(&lower), Some(Refusal::Outranked));
    }
    for higher in [value(7, b"n"), value(8, b"")] {
        assert_eq!(offer(&higher), None);
    }
    let mut bench = Bench::new(Mode::Client, Side::Serving);
    bench.records = records::slot_bytes(b"/wind/e", &held);
    assert_eq!(records::find(&bench.records, b"/wind/e"), Ok(Some(records::Found { slot: 0, value: held.clone() })));
    bench.hand(&request(&Message { kind: 1, key: b"/wind/e".to_vec(), ..Message::default() }));
    let record = Some(Record { key: b"/wind/e".to_vec(), value: held });
    let served = request(&Message { kind: 1, record, ..Message::default() });
    assert_eq!(bench.reply[..served.len()], served);
}

#[test]
fn refusals_10_and_11() {
    let mut store = vec![0; 2 * limits::RECORD_SLOT + 100];
    let (low, middle, high) = (value(255, b"z"), value(256, b"a"), value(256, b"ab"));
    assert_eq!(records::put(&mut store, b"/wind/e", &middle), Ok(()));
    let one = store.clone();
    assert_eq!(records::put(&mut store, b"/wind/e", &low), Err(Refusal::Outranked));
    assert_eq!(records::put(&mut store, b"/wind/e", &middle), Ok(()), "identical bytes");
    assert_eq!(store, one);
    assert_eq!(records::put(&mut store, b"/wind/e", &high), Ok(()));
    assert_eq!(records::put(&mut store, b"/wind/e", &middle), Err(Refusal::Outranked));
    assert_eq!(records::put(&mut store, b"/wind/a", &low), Ok(()));
    let two = store.clone();
    assert_eq!(records::put(&mut store, b"/wind/d", &low), Err(Refusal::NoRecordSlot));
    assert_eq!(records::put(&mut store, b"/wind/d", b"bad"), Err(Refusal::BrokenRecipe));
    assert_eq!(records::put(&mut store, b"/wind/", b"bad"), Err(Refusal::BreaksRules));
    assert_eq!(records::put(&mut store, b"/wind/e", &low), Err(Refusal::Outranked));
    assert_eq!(store, two);
    assert_eq!(records::put(&mut [], b"/wind/d", &low), Err(Refusal::NoRecordSlot));
    assert!(recipe::outranks(&high, &middle) && !recipe::outranks(&middle, &high) && !recipe::outranks(&high, &high));
    let mut bench = Bench::new(Mode::Server, Side::Serving);
    bench.records = store;
    let asked = put(b"/wind/e", b"/wind/e", &low);
    assert_eq!(bench.refused(&asked), (10, asked.len()));
    let mut bench2 = Bench::new(Mode::Server, Side::Serving);
    bench2.records = bench.records;
    assert_eq!(bench2.refused(&put(b"/wind/d", b"/wind/d", &low)).0, 11);
}

#[test]
fn a_held_value_that_is_no_recipe_is_ranked_by_its_last_eight_bytes() {
    let odd = [b"no recipe at all ".to_vec(), 9u64.to_le_bytes().to_vec()].concat();
    let mut store = records::slot_bytes(b"/wind/e", &odd);
    assert_eq!(records::put(&mut store, b"/wind/e", &value(8, b"")), Err(Refusal::Outranked));
    assert_eq!(records::put(&mut store, b"/wind/e", &odd), Err(Refusal::BrokenRecipe));
    assert_eq!(records::find(&store, b"/wind/e").unwrap().unwrap().value, odd);
    assert_eq!(records::put(&mut store, b"/wind/e", &value(10, b"")), Ok(()));
    assert_eq!(store, records::slot_bytes(b"/wind/e", &value(10, b"")), "the whole slot is written");
}

#[test]
fn refusal_12() {
    let me = me();
    let mut table = vec![0; limits::CONTACT_SLOT];
    let server = |id: &'static [u8]| Newcomer { id, mode: Mode::Server, addresses: &[] };
    for id in [&b""[..], &[1; 65], b"this box"] {
        assert_eq!(contacts::seen(&mut table, &me, id, Mode::Client, &[]), Seen::Refused(Refusal::BadPeer), "12 before 18");
        assert_eq!(contacts::remove(&mut table, &me, id), Err(Refusal::BadPeer));
        assert_eq!(contacts::doubt(&mut table, &me, id), Err(Refusal::BadPeer));
        assert_eq!(contacts::settle(&mut table, &me, id, server(b"x"), true), Err(Refusal::BadPeer));
        assert_eq!(contacts::settle(&mut table, &me, b"x", Newcomer { id, ..server(b"") }, true), Err(Refusal::BadPeer));
        let (conn, refusal) = open(&me, id, Mode::Server, &[1, 0, 5], Side::Serving);
        assert_eq!((refusal, conn.framing, conn.peer.id.len(), conn.peer.addresses.len()), (Some(Refusal::BadPeer), Framing::Shut, 0, 0));
        let lookup = going();
        assert_eq!(lookup.clone().failure(&me, id), (lookup, Step::Refused(Refusal::BadPeer)));
    }
    table[0] = 9;
    assert_eq!(contacts::seen(&mut table, &me, b"", Mode::Client, &[]), Seen::Refused(Refusal::OutOfForm));
    assert_eq!(contacts::doubt(&mut table, &me, b""), Err(Refusal::OutOfForm));
    assert_eq!(open(&me, &[1; 64], Mode::Server, &[], Side::Serving).1, None);
}

fn ids_of_bucket(me: &Me, number: usize, count: usize) -> Vec<Vec<u8>> {
    (0u32..).map(|n| n.to_be_bytes().to_vec()).filter(|id| bucket(&place_of(id), &me.place) == number).take(count).collect()
}

/// A table with a full bucket 0 in so many slots, and 23 ids of that bucket.
fn full(slots: usize) -> (Me, Vec<u8>, Vec<Vec<u8>>) {
    let me = me();
    let ids = ids_of_bucket(&me, 0, 23);
    let mut table = vec![0; slots * limits::CONTACT_SLOT];
    for id in &ids[..20] {
        contacts::seen(&mut table, &me, id, Mode::Server, &[]);
    }
    (me, table, ids)
}

#[test]
fn refusals_13_14_and_18() {
    let (me, mut table, ids) = full(20);
    let before = table.clone();
    assert_eq!(contacts::seen(&mut table, &me, &ids[20], Mode::Client, &[]), Seen::Refused(Refusal::Client), "18 before 13");
    assert_eq!(contacts::seen(&mut table, &me, &ids[20], Mode::Server, &[]).refusal(), Some(Refusal::BucketFull), "13 before 14");
    let other = ids_of_bucket(&me, 1, 1).remove(0);
    assert_eq!(contacts::seen(&mut table, &me, &other, Mode::Server, &[]), Seen::Refused(Refusal::NoContactSlot));
    assert_eq!(contacts::seen(&mut table, &me, &other, Mode::Client, &[]), Seen::Refused(Refusal::Client), "18 before 14");
    assert_eq!(contacts::seen(&mut table, &me, &ids[0], Mode::Client, &[]), Seen::Refused(Refusal::Client), "a held one too");
    assert_eq!(table, before);
    assert_eq!(contacts::seen(&mut table, &me, &ids[0], Mode::Server, &[]), Seen::Moved { slot: 0 }, "a held one is never 13 or 14");
    assert_eq!(contacts::seen(&mut [], &me, &other, Mode::Server, &[]), Seen::Refused(Refusal::NoContactSlot));
}

#[test]
fn refusal_15() {
    let (me, mut table, ids) = full(22);
    let before = table.clone();
    let server = |id| Newcomer { id, mode: Mode::Server, addresses: &[] };
    let other = ids_of_bucket(&me, 1, 1).remove(0);
    for answered in [false, true] {
        let mut settle = |head: &[u8], newcomer| contacts::settle(&mut table, &me, head, newcomer, answered);
        assert_eq!(settle(&ids[1], server(&ids[20])), Err(Refusal::NoLongerFits), "not the head");
        assert_eq!(settle(&ids[20], server(&ids[21])), Err(Refusal::NoLongerFits), "not held");
        assert_eq!(settle(&ids[0], server(&ids[5])), Err(Refusal::NoLongerFits), "the newcomer is held");
        assert_eq!(settle(&ids[0], server(&ids[0])), Err(Refusal::NoLongerFits), "the newcomer is the head");
        assert_eq!(settle(&ids[0], server(&other)), Err(Refusal::NoLongerFits), "of another bucket");
        assert_eq!(settle(&ids[1], Newcomer { mode: Mode::Client, ..server(&ids[20]) }), Err(Refusal::NoLongerFits), "15 before 18");
        assert_eq!(settle(&ids[0], Newcomer { mode: Mode::Client, ..server(&ids[20]) }), Err(Refusal::Client));
    }
    assert_eq!(contacts::remove(&mut table, &me, &ids[20]), Err(Refusal::NoLongerFits));
    assert_eq!(contacts::doubt(&mut table, &me, &ids[20]), Err(Refusal::NoLongerFits));
    assert_eq!(table, before);
    assert_eq!(contacts::remove(&mut table, &me, &ids[7]), Ok(7));
    assert_eq!(contacts::settle(&mut table, &me, &ids[0], server(&ids[20]), true), Err(Refusal::NoLongerFits), "no longer full");
    assert_eq!(contacts::seen(&mut table, &me, &ids[20], Mode::Server, &[]), Seen::Joined { slot: 7 });
    assert_eq!(contacts::settle(&mut table, &me, &ids[0], server(&ids[21]), false), Ok(Settled::Swapped));
    assert_eq!(contacts::contact(&table, 0).rank, 19);
}

#[test]
fn addresses_of_a_sighting() {
    let me = me();
    let mut table = vec![0; limits::CONTACT_SLOT];
    let list = address_list(&[vec![], vec![1; 128], vec![2; 129], vec![3], vec![4], vec![5], vec![6]]);
    assert_eq!(usable(&list), [vec![1; 128], vec![3], vec![4], vec![5]]);
    contacts::seen(&mut table, &me, b"x", Mode::Server, &[]);
    assert_eq!(contacts::contact(&table, 0).addresses.len(), 0, "joins with none usable");
    contacts::seen(&mut table, &me, b"x", Mode::Server, &list);
    assert_eq!(contacts::contact(&table, 0).addresses, usable(&list));
    contacts::seen(&mut table, &me, b"x", Mode::Server, &address_list(&[vec![], vec![9; 129]]));
    assert_eq!(contacts::contact(&table, 0).addresses, usable(&list), "none usable: the old ones stay");
    contacts::seen(&mut table, &me, b"x", Mode::Server, &[1, 0, 7, 9]);
    assert_eq!(contacts::contact(&table, 0).addresses, [vec![7]]);
    assert_eq!(table, contacts::slot_bytes(&Contact { rank: 0, doubtful: false, place: place_of(b"x"), id: b"x".to_vec(), addresses: vec![vec![7]] }));
    assert_eq!(addresses_of(&[1, 0, 7, 0, 0, 2, 0, 7]), [vec![7], vec![]], "what runs past the end ends the list");
}

#[test]
fn addresses_that_no_open_gives() {
    let odd = vec![vec![], vec![1; 128], vec![2; 129], vec![], vec![3]];
    let kept = [vec![1; 128], vec![3]];
    let mut bench = Bench::new(Mode::Server, Side::Serving);
    bench.conn.peer.addresses = odd.clone();
    bench.me.addresses = odd;
    for id in [&b"a bench"[..], b"this box"] {
        let (_, Answer::Replied { length, .. }) = bench.hand(&find(id)) else { panic!("a connection's addresses don't count for its form") };
        let said = message::decode(&bench.reply[2..length]).expect("a reply").closer.pop().expect("an entry");
        assert_eq!((&said.id[..], &said.addresses[..]), (id, &kept[..]), "an entry has the usable ones");
    }
    assert_eq!(contacts::contact(&bench.contacts, 0).addresses, kept, "and so has a contact");
    bench.conn.peer.addresses = vec![vec![], vec![4; 129]];
    bench.hand(&ping());
    assert_eq!(contacts::contact(&bench.contacts, 0).addresses, kept, "none usable: the old ones stay");
}

#[test]
fn a_held_place_keeps_its_stored_id() {
    let me = me();
    let mut table = contacts::slot_bytes(&Contact { rank: 0, doubtful: true, place: place_of(b"true"), id: b"stored".to_vec(), addresses: vec![] });
    assert_eq!(contacts::seen(&mut table, &me, b"true", Mode::Server, &[1, 0, 7]), Seen::Moved { slot: 0 });
    assert_eq!(contacts::contact(&table, 0).id, b"stored");
    assert_eq!(contacts::remove(&mut table, &me, b"stored"), Err(Refusal::NoLongerFits));
    assert_eq!(contacts::doubt(&mut table, &me, b"stored"), Err(Refusal::NoLongerFits));
    assert_eq!(contacts::remove(&mut table, &me, b"true"), Ok(0));
    assert_eq!(table, vec![0; limits::CONTACT_SLOT]);
}

/// Which slots hold a doubtful contact.
fn doubtful(table: &[u8], me: &Me) -> Vec<usize> {
    let all = contacts::entries(table, &me.place).expect("in form");
    (0..all.len()).filter(|i| all[*i].is_some_and(|e| e.doubtful)).collect()
}

#[test]
fn a_mark_of_doubt_stays_until_its_contact_is_seen_or_answers() {
    let (me, mut table, ids) = full(22);
    let before = table.clone();
    for i in [0, 5, 6, 7, 5] {
        assert_eq!(contacts::doubt(&mut table, &me, &ids[i]), Ok(i), "twice is fine");
    }
    assert_eq!(doubtful(&table, &me), [0, 5, 6, 7]);
    let changed = |now: &[u8]| (0..now.len()).filter(|at| now[*at] != before[*at]).collect::<Vec<_>>();
    assert_eq!(changed(&table), [0, 5, 6, 7].map(|i| i * limits::CONTACT_SLOT + 1), "nothing else changes");
    let marked = table.clone();
    contacts::seen(&mut table, &me, &ids[5], Mode::Client, &[]);
    let server = |id| Newcomer { id, mode: Mode::Server, addresses: &[] };
    assert_eq!(contacts::settle(&mut table, &me, &ids[0], server(&ids[5]), true), Err(Refusal::NoLongerFits));
    assert_eq!(contacts::settle(&mut table, &me, &ids[0], Newcomer { mode: Mode::Client, ..server(&ids[20]) }, true), Err(Refusal::Client));
    assert_eq!(table, marked, "15 and 18 leave it, even if the head did answer");
    let full = contacts::seen(&mut table, &me, &ids[20], Mode::Server, &[]);
    assert_eq!(full, Seen::BucketFull { head_slot: 0, head_id: ids[0].clone() }, "a doubtful head is named for a probe");
    assert_eq!(contacts::settle(&mut table, &me, &ids[0], server(&ids[20]), true), Ok(Settled::Kept));
    assert_eq!(doubtful(&table, &me), [5, 6, 7], "the head answered, and those behind it keep their marks");
    contacts::seen(&mut table, &me, &ids[5], Mode::Server, &[]);
    contacts::seen(&mut table, &me, &ids[6], Mode::Server, &[1, 0, 9]);
    assert_eq!(doubtful(&table, &me), [7], "with new addresses or without");
    contacts::doubt(&mut table, &me, &ids[1]).expect("held");
    assert_eq!(contacts::settle(&mut table, &me, &ids[1], server(&ids[20]), false), Ok(Settled::Swapped));
    assert_eq!((contacts::contact(&table, 1).id, doubtful(&table, &me)), (ids[20].clone(), vec![7]), "a newcomer is unmarked");
    contacts::remove(&mut table, &me, &ids[7]).expect("held");
    table[7 * limits::CONTACT_SLOT + 1] = 1;
    assert_eq!(contacts::seen(&mut table, &me, &ids[7], Mode::Server, &[]), Seen::Joined { slot: 7 });
    assert_eq!(doubtful(&table, &me), [0; 0], "so is one that was removed, whatever stood in its free slot");
}

/// Request x: marked ones are passed over before the 20 are chosen.
#[test]
fn of_25_with_the_8_nearest_doubtful_17_are_nearest() {
    let me = me();
    let ids = [ids_of_bucket(&me, 0, 15), ids_of_bucket(&me, 1, 10)].concat();
    let mut table = vec![0; 25 * limits::CONTACT_SLOT];
    ids.iter().for_each(|id| drop(contacts::seen(&mut table, &me, id, Mode::Server, &[])));
    let mut by_distance: Vec<usize> = (0..25).collect();
    by_distance.sort_by_key(|i| distance(&place_of(&ids[*i]), &place_of(b"key")));
    let nearest = |table: &[u8]| contacts::nearest(table, &me, b"key").expect("in form");
    assert_eq!(nearest(&table), by_distance[..20]);
    for (marked, i) in by_distance.iter().enumerate() {
        assert_eq!(nearest(&table), by_distance[marked..25.min(20 + marked)], "{marked} are doubtful");
        contacts::doubt(&mut table, &me, &ids[*i]).expect("held");
    }
    assert_eq!(nearest(&table), [0; 0]);
    assert!(matches!(Lookup::start(&table, &me, b"key", 3).1, Step::Over(over) if over.complete && over.sent == 0));
    contacts::seen(&mut table, &me, &ids[3], Mode::Server, &[]);
    assert_eq!(Lookup::start(&table, &me, b"key", 3).0.candidates.len(), 1);
}

/// A lookup with three candidates of which one is in flight.
fn going() -> Lookup {
    let place = place_of(b"key");
    let mark = |id: &[u8]| if id == b"b" { Mark::InFlight } else { Mark::Idle };
    let mut candidates: Vec<Candidate> = [b"a", b"b", b"c"].iter().map(|id| Candidate { mark: mark(*id), id: id.to_vec(), place: place_of(*id) }).collect();
    candidates.sort_by_key(|c| distance(&c.place, &place));
    Lookup { key: b"key".to_vec(), place, limit: 2, candidates, turned_away: false }
}

fn find_reply(ids: &[&[u8]]) -> (Vec<u8>, View) {
    let closer = ids.iter().map(|id| Peer { id: id.to_vec(), ..Peer::default() }).collect();
    let body = encode(&Message { kind: 4, closer, ..Message::default() });
    let view = message::read(&body).expect("a view");
    (body, view)
}

#[test]
fn refusals_16_and_17() {
    let (body, view) = find_reply(&[]);
    for id in [b"a", b"x"] {
        assert_eq!(going().failure(&me(), id).1, Step::Refused(Refusal::NotInFlight));
        assert_eq!(going().reply(&me(), id, &body, &view), (going(), Step::Refused(Refusal::NotInFlight)));
    }
    let mut over = going();
    over.candidates.iter_mut().for_each(|c| c.mark = Mark::Answered);
    assert_eq!(over.clone().failure(&me(), b"x"), (over.clone(), Step::Refused(Refusal::LookupOver)), "17 before 16");
    assert_eq!(over.clone().reply(&me(), b"a", &body, &view).1, Step::Refused(Refusal::LookupOver));
    assert_eq!(over.clone().failure(&me(), b"").1, Step::Refused(Refusal::BadPeer), "12 before 17");
    let Next::Over(outcome) = over.next().1 else { panic!() };
    assert_eq!((outcome.complete, outcome.answered.len(), outcome.sent), (true, 3, 3));
    let (failed, step) = going().failure(&me(), b"b");
    assert_eq!(step, Step::Going);
    assert_eq!(failed.failure(&me(), b"b").1, Step::Refused(Refusal::NotInFlight), "failed for good");
}

#[test]
fn refusal_0_of_lookups_and_views() {
    let (body, view) = find_reply(&[]);
    let spoils: [&dyn Fn(&mut Lookup); 8] = [
        &|l| l.limit = 0,
        &|l| l.limit = 11,
        &|l| l.key.clear(),
        &|l| l.key = vec![1; 129],
        &|l| l.candidates.swap(0, 1),
        &|l| l.candidates[2].id.clear(),
        &|l| l.candidates[0].id = vec![1; 65],
        &|l| l.candidates.insert(1, l.candidates[0].clone()),
    ];
    for spoil in spoils {
        let mut spoiled = going();
        spoil(&mut spoiled);
        assert_eq!(spoiled.clone().next(), (spoiled.clone(), Next::Refused(Refusal::OutOfForm)));
        assert_eq!(spoiled.clone().failure(&me(), b"").1, Step::Refused(Refusal::OutOfForm));
        assert_eq!(spoiled.clone().reply(&me(), b"b", &body, &view).1, Step::Refused(Refusal::OutOfForm));
    }
    let other_views = [
        View { kind: 5, ..view },
        View { key: Span { at: 2, len: 0 }, ..view },
        View { record: Some(message::RecordView { key: Span::default(), value: Span::default() }), ..view },
    ];
    for other in other_views {
        assert_eq!(going().reply(&me(), b"", &body, &other).1, Step::Refused(Refusal::OutOfForm));
    }
    assert_eq!(going().reply(&me(), b"b", &[0x0b], &view).1, Step::Refused(Refusal::OutOfForm));
    let refused = Lookup::start(&[], &me(), b"", 3).0;
    assert_eq!((refused.clone(), refused.next().1), (Lookup::empty(), Next::Refused(Refusal::OutOfForm)));
    let mut many = going();
    many.place = [0; 32];
    let place = |n: usize| std::array::from_fn(|i| if i < 30 { 0 } else { (n >> (8 * (31 - i))) as u8 });
    many.candidates = (0..257).map(|n| Candidate { mark: Mark::Idle, id: vec![1], place: place(n) }).collect();
    assert_eq!(many.clone().next().1, Next::Refused(Refusal::OutOfForm));
    many.candidates.pop();
    assert!(matches!(many.next().1, Next::Ask { candidate: 0, .. }));
}

#[test]
fn what_a_reply_tells() {
    let (body, view) = find_reply(&[b"", b"this box", &[1; 65], b"a", b"d", b"d"]);
    let (told, step) = going().reply(&me(), b"b", &body, &view);
    assert_eq!((step, told.candidates.len()), (Step::Going, 4));
    assert!(told.in_form() && !told.turned_away);
    let names: Vec<Vec<u8>> = (0..22).map(|n| vec![100 + n]).collect();
    let (body, view) = find_reply(&names.iter().map(|n| &n[..]).collect::<Vec<_>>());
    let (told, _) = going().reply(&me(), b"b", &body, &view);
    assert_eq!(told.candidates.len(), 3 + 21, "the first 21");
    assert!(!told.candidates.iter().any(|c| c.id == names[21]));
    let body = encode(&Message { kind: 5, closer: vec![Peer { id: vec![7], ..Peer::default() }], ..Message::default() });
    let (told, _) = going().reply(&me(), b"b", &body, &message::read(&body).unwrap());
    assert_eq!((told.candidates.len(), told.candidates.iter().filter(|c| c.mark == Mark::Failed).count()), (3, 1), "another type fails its sender");
}

#[test]
fn next_keeps_the_limit() {
    let (one, next) = going().next();
    assert!(matches!(next, Next::Ask { .. }));
    assert_eq!(one.clone().next(), (one, Next::Wait));
    let mut far = going();
    far.limit = 10;
    far.candidates.iter_mut().for_each(|c| c.mark = Mark::InFlight);
    assert_eq!(far.next().1, Next::Wait, "nobody is idle");
}

#[test]
fn refusal_19() {
    for (piece, ended) in [
        (vec![], Ok(())),
        (ping(), Ok(())),
        (vec![0x80], Err(Refusal::EndedInside)),
        (vec![2], Err(Refusal::EndedInside)),
        (vec![2, 8], Err(Refusal::EndedInside)),
    ] {
        let mut bench = Bench::new(Mode::Client, Side::Serving);
        bench.hand(&piece);
        assert_eq!(end(&bench.me, &mut bench.conn), ended, "{piece:?}");
        assert_eq!(bench.conn.peer.id, b"a bench", "the peer is kept");
        assert_eq!(end(&bench.me, &mut bench.conn), Err(Refusal::Shut));
    }
}

#[test]
fn refusal_20() {
    for (concurrency, good) in [(0, false), (1, true), (10, true), (11, false), (u64::MAX, false)] {
        let (lookup, step) = Lookup::start(&[], &me(), b"key", concurrency);
        assert_eq!(step == Step::Refused(Refusal::BadConcurrency), !good);
        assert_eq!(lookup == Lookup::empty(), !good);
    }
    assert_eq!(Lookup::start(&[], &me(), &[1; 129], 0).1, Step::Refused(Refusal::BreaksRules));
    let mut table = vec![0; limits::CONTACT_SLOT];
    table[0] = 2;
    assert_eq!(Lookup::start(&table, &me(), &[], 0).1, Step::Refused(Refusal::OutOfForm));
}

#[test]
fn refusal_21() {
    let writes = |m: &Message| {
        let mut out = vec![0xdd; limits::REPLY];
        let wrote = write(&mut out, m);
        assert!(wrote.is_ok() || out == vec![0xdd; limits::REPLY]);
        assert_ne!(wrote, Err(Refusal::SmallBuffer));
        wrote.is_ok()
    };
    let peer = |id: usize, addresses: &[usize], connection| Peer { id: vec![1; id], addresses: addresses.iter().map(|n| vec![2; *n]).collect(), connection };
    let with = |p: Peer| [Message { closer: vec![p.clone()], ..Message::default() }, Message { providers: vec![p], ..Message::default() }];
    assert!((0..6).all(|kind| writes(&Message { kind, ..Message::default() })));
    assert!(!writes(&Message { kind: 6, ..Message::default() }) && !writes(&Message { kind: 1 << 32, ..Message::default() }));
    assert!(writes(&Message { key: vec![1; 128], ..Message::default() }) && !writes(&Message { key: vec![1; 129], ..Message::default() }));
    for (key, value, good) in [(0, 0, true), (128, 2_048, true), (0, 2_049, true), (128, 3_072, true), (129, 0, false), (0, 3_073, false)] {
        assert_eq!(writes(&Message { record: Some(Record { key: vec![1; key], value: vec![2; value] }), ..Message::default() }), good);
    }
    for good in [peer(0, &[], 0), peer(64, &[128, 0, 1, 128], 3)] {
        assert!(with(good).iter().all(writes));
    }
    for bad in [peer(65, &[], 0), peer(0, &[129], 0), peer(0, &[0; 5], 0), peer(0, &[], 4), peer(0, &[], 255)] {
        assert!(!with(bad).iter().any(writes));
    }
    let many = |n: usize, last: usize| Message { closer: [vec![peer(64, &[128; 4], 0); n], vec![peer(last, &[128; 3], 0)]].concat(), ..Message::default() };
    assert_eq!(encode(&many(26, 64)).len(), 2 + 26 * 595 + 464);
    let exactly = Message {
        key: vec![1; 128],
        record: Some(Record { key: vec![], value: vec![3; 16_384 - 133 - 26 * 595 - 6] }),
        closer: vec![peer(64, &[128; 4], 0); 26],
        ..Message::default()
    };
    assert_eq!(encode(&exactly).len(), 16_384);
    assert!(writes(&exactly));
    let over = Message { record: Some(Record { key: vec![], value: vec![3; 16_384 - 133 - 26 * 595 - 6 + 1] }), ..exactly.clone() };
    assert!(!writes(&over));
    assert_eq!(write(&mut vec![0; limits::REPLY - 1], &Message { kind: 9, ..Message::default() }), Err(Refusal::SmallBuffer), "1 before 21");
    let list = peer_list(&[peer(3, &[2, 0], 3), peer(0, &[], 255)]);
    assert_eq!(list, [3, 0, 1, 1, 1, 3, 6, 0, 2, 0, 2, 2, 0, 0, 0, 0, 255, 0, 0]);
    assert_eq!(peers_of(&list), [peer(3, &[2, 0], 3), peer(0, &[], 255)]);
    assert_eq!(peers_of(&list[..list.len() - 1]), [peer(3, &[2, 0], 3)], "an entry that runs past the end ends the list");
    assert_eq!(find(b"AB"), [6, 8, 4, 0x12, 2, 0x41, 0x42]);
}
