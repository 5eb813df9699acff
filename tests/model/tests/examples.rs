//! All of RULES, Examples, the sizes and old mistakes that RULES names, and what a doubtful requester is told.

use starterbell_model::contacts::{self, Newcomer, Seen, Settled};
use starterbell_model::gen::{place_in, Rng};
use starterbell_model::limits;
use starterbell_model::lookup::{Candidate, Lookup, Mark, Next, Step};
use starterbell_model::message::{self, encode, encode_peer, Message, Peer, Record};
use starterbell_model::node::{end, open, receive, Answer, Conn, Lent, Received, Side};
use starterbell_model::peer::{Me, Mode};
use starterbell_model::place::{bucket, place_of};
use starterbell_model::recipe::{self, read, trim_of, zigzag, Broken, Part, Recipe, Rule, Setpoint};
use starterbell_model::stream::{self, Event, Framing};
use starterbell_model::wire::{minimal, put_bytes};
use starterbell_model::writer::{framed, write};
use starterbell_model::{program, Refusal};

fn me() -> Me {
    Me::start(b"this box", &[]).0
}

fn client() -> Conn {
    open(&me(), b"a bench", Mode::Client, &[], Side::Serving).0
}

fn hand(conn: &mut Conn, piece: &[u8]) -> (Received, Vec<u8>) {
    let (mut buffer, mut reply) = (vec![0; limits::BODY], vec![0; limits::REPLY]);
    let mut lent = Lent { contacts: &mut [], records: &mut [], buffer: &mut buffer, reply: &mut reply };
    let got = receive(&me(), conn, &mut lent, piece);
    (got, reply)
}

fn frames(piece: &[u8]) -> (Framing, usize, Event) {
    let mut framing = Framing::fresh();
    let (taken, event) = stream::receive(&mut framing, &mut vec![0; limits::BODY], piece);
    (framing, taken, event)
}

#[test]
fn prefixes() {
    assert_eq!(frames(&[0]), (Framing::fresh(), 1, Event::Message(0)));
    let (got, _) = hand(&mut client(), &[0, 9]);
    assert_eq!(got, Received { taken: 1, answer: Answer::Refused(Refusal::BreaksRules) });
    assert_eq!(frames(&[0x80, 0, 1]), (Framing::Shut, 2, Event::Refused(Refusal::PrefixNotMinimal)));
    assert_eq!(frames(&[0x80, 0x80, 1]), (Framing::Body { length: 16_384, have: 0 }, 3, Event::More));
    assert_eq!(frames(&[0x81, 0x80, 1, 5]), (Framing::Shut, 3, Event::Refused(Refusal::TooLong)));
    assert_eq!(frames(&[0x80, 0x80, 0x80, 5]), (Framing::Shut, 3, Event::Refused(Refusal::TooLong)));
    assert_eq!(frames(&[0xff, 0x7f]), (Framing::Body { length: 16_383, have: 0 }, 2, Event::More));
    for needless in [[0x80, 0x80, 0], [0xff, 0xff, 0]] {
        assert_eq!(frames(&needless), (Framing::Shut, 3, Event::Refused(Refusal::PrefixNotMinimal)));
    }
}

#[test]
fn the_longest_message_is_taken() {
    let mut body = Vec::new();
    put_bytes(&mut body, 7, &vec![0x55; limits::BODY - 3 - 2]);
    body.extend([0x08, 0x05]);
    assert_eq!(body.len(), 16_384);
    let (got, reply) = hand(&mut client(), &[framed(&body), vec![1]].concat());
    assert_eq!(got, Received { taken: 3 + 16_384, answer: Answer::Replied { length: 3, sighting: None } });
    assert_eq!(reply[..4], [2, 8, 5, 0]);
}

#[test]
fn zigzags() {
    assert_eq!((zigzag(0), zigzag(-1), zigzag(1)), (0, 1, 2));
    assert_eq!((zigzag(-20_000), minimal(39_999)), (39_999, vec![0xbf, 0xb8, 0x02]));
    assert_eq!((zigzag(20_000), minimal(40_000)), (40_000, vec![0xc0, 0xb8, 0x02]));
    for z in 0..=40_000 {
        assert_eq!(zigzag(trim_of(z)), z);
    }
}

fn one_setpoint(list: &[u8]) -> Vec<u8> {
    [list, &[list.len() as u8 + 16, 0, 0, 0, 1, 0, 1, 0, 7, 0, 0, 0, 0, 0, 0, 0]].concat()
}

#[test]
fn recipes() {
    let mut value = vec![0x00, 0x01, 0x12, 0, 0, 0, 1, 0, 1, 0, 7, 0, 0, 0, 0, 0, 0, 0];
    assert_eq!(value, one_setpoint(&[0, 1]));
    let good = read(&value).expect("a recipe");
    assert_eq!((good.note.len(), good.wrap, good.sequence), (0, vec![Setpoint { turn: 0, trim: -1 }], 7));
    value[2] = 0x13;
    assert_eq!(read(&value), Err(Broken { rule: Rule::BadDistance, part: Part::Wrap, setpoint: 0 }));
    let empty = [16, 0, 0, 0, 0, 0, 1, 0, 0, 0, 0, 0, 0, 0, 0, 0];
    assert_eq!(read(&empty), Ok(Recipe::default()));
    assert!(read(&one_setpoint(&[0, 0xc0, 0xb8, 0x02])).is_ok());
    assert_eq!(read(&one_setpoint(&[0, 0xc1, 0xb8, 0x02])), Err(Broken { rule: Rule::TrimOutOfRange, part: Part::Wrap, setpoint: 0 }), "40,001");
}

#[test]
fn buckets_by_leading_bits() {
    let mut ours = [0; 32];
    ours[0] = 0b0010_1100;
    for rest in [0u8, 0x0f] {
        let (mut one, mut three) = ([rest; 32], [rest; 32]);
        one[0] = 0b0100_0000 | rest;
        three[0] = 0b0011_0000 | rest;
        assert_eq!((bucket(&one, &ours), bucket(&three, &ours)), (1, 3));
    }
    assert_eq!(bucket(&ours, &ours), 256);
    let mut last = ours;
    last[31] ^= 1;
    assert_eq!(bucket(&last, &ours), 255);
}

/// The first ids of a bucket.
fn ids_of_bucket(me: &Me, number: usize, count: usize) -> Vec<Vec<u8>> {
    (0u32..).map(|n| n.to_be_bytes().to_vec()).filter(|id| bucket(&place_of(id), &me.place) == number).take(count).collect()
}

#[test]
fn the_twenty_first_of_a_bucket() {
    let me = me();
    let mut table = vec![0; 30 * limits::CONTACT_SLOT];
    let ids = ids_of_bucket(&me, 0, 21);
    for (slot, id) in ids[..20].iter().enumerate() {
        assert_eq!(contacts::seen(&mut table, &me, id, Mode::Server, &[]), Seen::Joined { slot });
    }
    let before = table.clone();
    let full = contacts::seen(&mut table, &me, &ids[20], Mode::Server, &[]);
    assert_eq!(full, Seen::BucketFull { head_slot: 0, head_id: ids[0].clone() });
    assert_eq!(table, before);
    assert_eq!(contacts::seen(&mut table, &me, &ids[3], Mode::Server, &[]), Seen::Moved { slot: 3 });
    let newcomer = Newcomer { id: &ids[20], mode: Mode::Server, addresses: &[] };
    assert_eq!(contacts::settle(&mut table, &me, &ids[0], newcomer, true), Ok(Settled::Kept));
    assert_eq!(contacts::settle(&mut table, &me, &ids[0], newcomer, false), Err(Refusal::NoLongerFits));
    assert_eq!(contacts::settle(&mut table, &me, &ids[1], newcomer, false), Ok(Settled::Swapped));
    let order: Vec<Vec<u8>> = contacts::buckets(&table, &me.place)[&0].iter().map(|c| c.id.clone()).collect();
    let kept = ids[2..3].iter().chain(&ids[4..20]).chain([&ids[3], &ids[0], &ids[20]]);
    assert_eq!(order, kept.cloned().collect::<Vec<_>>());
    assert_eq!(contacts::contact(&table, 1).id, ids[20], "the freed slot is used again");
}

#[test]
fn the_257th_candidate_marks() {
    let me = me();
    let mut rng = Rng::new(1);
    let key = b"a key".to_vec();
    let place = place_of(&key);
    let ids: Vec<Vec<u8>> = (0..257).map(|_| rng.bytes(20)).collect();
    let mut candidates: Vec<Candidate> = ids[..255].iter().map(|id| Candidate { mark: Mark::Idle, id: id.clone(), place: place_of(id) }).collect();
    candidates.sort_by_key(|c| starterbell_model::place::distance(&c.place, &place));
    let lookup = Lookup { key, place, limit: 3, candidates, turned_away: false };
    let (lookup, next) = lookup.next();
    let Next::Ask { candidate: 0, id: first } = next else { panic!("{next:?}") };
    let (lookup, next) = lookup.next();
    let Next::Ask { candidate: 1, id: second } = next else { panic!("{next:?}") };
    let names = |i: usize| Message { kind: 4, closer: vec![Peer { id: ids[i].clone(), ..Peer::default() }], ..Message::default() };
    let (one, two) = (encode(&names(255)), encode(&names(256)));
    let (lookup, step) = lookup.reply(&me, &first, &one, &message::read(&one).unwrap());
    assert_eq!((step, lookup.candidates.len(), lookup.turned_away), (Step::Going, 256, false));
    let (lookup, step) = lookup.reply(&me, &second, &two, &message::read(&two).unwrap());
    assert_eq!((step, lookup.candidates.len(), lookup.turned_away), (Step::Going, 256, true));
}

#[test]
fn the_program() {
    let input = [0x02, 0x08, 0x05, 0x06, 0x08, 0x04, 0x12, 0x02, 0x41, 0x42];
    for piece in [1, 7, 4_096] {
        let (written, well) = program::run(b"box", b"bench", &input, piece, 0, 0);
        assert_eq!((written, well), (vec![0x02, 0x08, 0x05, 0x02, 0x08, 0x04], true));
    }
    let cut_off = program::run(b"box", b"bench", &input[..9], 4_096, 0, 0);
    assert_eq!(cut_off, (vec![0x02, 0x08, 0x05], false));
    let refused = program::run(b"box", b"bench", &[0x02, 0x08, 0x05, 0x00, 0x02, 0x08, 0x05], 4_096, 0, 0);
    assert_eq!(refused, (vec![0x02, 0x08, 0x05], false), "a refusal ends the run");
}

#[test]
fn the_largest_sizes() {
    let largest = Peer { id: vec![1; 64], addresses: vec![vec![2; 128]; 4], connection: 0 };
    let mut one = Vec::new();
    put_bytes(&mut one, 8, &encode_peer(&largest));
    assert_eq!(one.len(), 595);
    let record = Some(Record { key: vec![3; 128], value: vec![4; 3_072] });
    let echo = Message { key: vec![3; 128], record: record.clone(), ..Message::default() };
    assert_eq!(encode(&echo).len(), 2 + 131 + 3_209);
    assert_eq!(write(&mut vec![0; limits::REPLY], &echo), Ok(3_342 + 2), "a prefix of two bytes");
    let reply = Message { kind: 1, record, closer: vec![largest; 20], ..Message::default() };
    assert_eq!(encode(&reply).len(), 2 + 3_209 + 20 * 595);
    assert_eq!(write(&mut vec![0; limits::REPLY], &reply), Ok(15_111 + 2), "a prefix of two bytes");
    assert_eq!((limits::RECORD_SLOT, limits::RECORD_SLOTS * limits::RECORD_SLOT), (3_208, 821_248));
}

/// Request iii: the largest value comes out whole, beside 20 of the largest peers and as an echo.
#[test]
fn the_largest_replies() {
    let (me, mut rng) = (me(), Rng::new(6));
    let mut table: Vec<u8> = (0..20)
        .flat_map(|n| {
            let (place, id) = (place_in(&mut rng, &me.place, n), rng.bytes(64));
            contacts::slot_bytes(&contacts::Contact { rank: 0, doubtful: false, place, id, addresses: vec![vec![2; 128]; 4] })
        })
        .collect();
    let (key, value) = ([&b"/wind/"[..], &[b'k'; 122]].concat(), recipe::write(&Recipe { note: rng.bytes(3_056), ..Default::default() }));
    let record = Some(Record { key: key.clone(), value: value.clone() });
    let mut store = vec![0; limits::RECORD_SLOT];
    let mut ask = |kind: u64, record: Option<Record>, due: usize| {
        let (mut buffer, mut reply) = (vec![0; limits::BODY], vec![0; limits::REPLY]);
        let mut lent = Lent { contacts: &mut table, records: &mut store, buffer: &mut buffer, reply: &mut reply };
        let request = framed(&encode(&Message { kind, key: key.clone(), record, ..Message::default() }));
        assert_eq!(receive(&me, &mut client(), &mut lent, &request).answer, Answer::Replied { length: 2 + due, sighting: None });
        message::decode(&reply[2..2 + due]).expect("our own reply")
    };
    assert_eq!(ask(0, record.clone(), 3_342).record, record);
    let served = ask(1, None, 15_111);
    assert_eq!((served.record, served.closer.len()), (record, 20));
}

/// The last of these hold the record, in a store of one slot.
fn record() -> (Vec<u8>, Vec<u8>) {
    (b"/wind/e".to_vec(), one_setpoint(&[0, 1]))
}

#[test]
fn a_setpoint_behind_a_request_in_the_same_read_is_kept() {
    let (key, value) = record();
    let put = Message { kind: 0, key: key.clone(), record: Some(Record { key: key.clone(), value: value.clone() }), ..Message::default() };
    let get = Message { kind: 1, key: key.clone(), ..Message::default() };
    let input = [framed(&encode(&get)), framed(&encode(&put)), framed(&encode(&get))].concat();
    let found = Message { kind: 1, record: put.record.clone(), ..Message::default() };
    let not_yet = Message { kind: 1, ..Message::default() };
    let expected = [framed(&encode(&not_yet)), framed(&encode(&put)), framed(&encode(&found))].concat();
    for piece in [1, 5, 20, 4_096] {
        assert_eq!(program::run(b"box", b"bench", &input, piece, 0, 1), (expected.clone(), true));
    }
    assert_eq!(program::run(b"box", b"bench", &input, 9, 0, 0), (framed(&encode(&not_yet)), false), "no slot at all: 11");
    assert_eq!(recipe::read(&value).unwrap().sequence, 7);
}

/// What a peer that asks for a key's nearest is told, and what its sighting came to.
fn find_node(me: &Me, table: &mut [u8], key: &[u8], mode: Mode) -> (Vec<Peer>, Option<Seen>) {
    let (mut conn, _) = open(me, b"asker", mode, &[3, 0, 1, 2, 3], Side::Serving);
    let (mut buffer, mut reply) = (vec![0; limits::BODY], vec![0; limits::REPLY]);
    let mut lent = Lent { contacts: table, records: &mut [], buffer: &mut buffer, reply: &mut reply };
    let request = framed(&encode(&Message { kind: 4, key: key.to_vec(), ..Message::default() }));
    let got = receive(me, &mut conn, &mut lent, &request);
    let Answer::Replied { length, sighting } = got.answer else { panic!("{got:?}") };
    assert_eq!(end(me, &mut conn), Ok(()));
    let prefix = if reply[0] < 0x80 { 1 } else { 2 };
    (message::decode(&reply[prefix..length]).unwrap().closer, sighting)
}

#[test]
fn the_extra_entry_of_find_node() {
    let me = Me::start(b"this box", &[1, 0, 9, 0, 0, 2, 0, 8, 7]).0;
    let mut rng = Rng::new(5);
    let mut table: Vec<u8> = (0..25)
        .flat_map(|n| {
            let place = place_in(&mut rng, &me.place, n);
            contacts::slot_bytes(&contacts::Contact { rank: 0, doubtful: false, place, id: vec![n as u8 + 1], addresses: vec![] })
        })
        .collect();
    let (ours, _) = find_node(&me, &mut table, b"this box", Mode::Client);
    assert_eq!(ours.len(), 21);
    assert_eq!(ours[20], Peer { id: b"this box".to_vec(), addresses: vec![vec![9], vec![8, 7]], connection: 0 });
    assert_eq!(ours[0].id, [25], "the highest bucket is nearest to us");
    let (theirs, _) = find_node(&me, &mut table, b"asker", Mode::Client);
    assert_eq!((theirs.len(), &theirs[20].id[..], &theirs[20].addresses), (21, &b"asker"[..], &vec![vec![1, 2, 3]]));
    assert_eq!(find_node(&me, &mut table, b"else", Mode::Client).0.len(), 20);
    let (theirs, sighting) = find_node(&me, &mut table, b"asker", Mode::Server);
    assert_eq!((theirs.len(), sighting), (21, Some(Seen::Refused(Refusal::NoContactSlot))), "the reply is worked out first");
    table.extend(vec![0; limits::CONTACT_SLOT]);
    assert_eq!(find_node(&me, &mut table, b"asker", Mode::Server).1, Some(Seen::Joined { slot: 25 }));
    let (held, sighting) = find_node(&me, &mut table, b"asker", Mode::Server);
    assert_eq!((held.len(), &held[0].id[..], sighting), (20, &b"asker"[..], Some(Seen::Moved { slot: 25 })), "it is there already");
}

/// Request x: the extra entry stands even if its peer is doubtful, and a sighting ends the doubt.
#[test]
fn a_doubtful_requester_is_the_last_entry() {
    let me = me();
    let mut table = vec![0; 3 * limits::CONTACT_SLOT];
    for id in [&b"asker"[..], b"x", b"y"] {
        contacts::seen(&mut table, &me, id, Mode::Server, &[1, 0, 7]);
    }
    contacts::doubt(&mut table, &me, b"asker").expect("held");
    contacts::doubt(&mut table, &me, b"x").expect("held");
    let ids = |peers: &[Peer]| peers.iter().map(|p| p.id.clone()).collect::<Vec<_>>();
    assert_eq!(ids(&find_node(&me, &mut table, b"x", Mode::Client).0), [b"y".to_vec()], "another who asks for it doesn't get it");
    let (theirs, _) = find_node(&me, &mut table, b"asker", Mode::Client);
    assert_eq!((ids(&theirs), &theirs[1].addresses), (vec![b"y".to_vec(), b"asker".to_vec()], &vec![vec![1, 2, 3]]), "with the addresses of the open");
    let (theirs, sighting) = find_node(&me, &mut table, b"asker", Mode::Server);
    assert_eq!((ids(&theirs), sighting), (vec![b"y".to_vec(), b"asker".to_vec()], Some(Seen::Moved { slot: 0 })), "a client's request has cleared nothing");
    let (theirs, _) = find_node(&me, &mut table, b"asker", Mode::Server);
    assert_eq!((ids(&theirs), &theirs[0].addresses), (vec![b"asker".to_vec(), b"y".to_vec()], &vec![vec![1, 2, 3]]));
}

#[test]
fn an_empty_lookup_is_complete_at_once() {
    let (lookup, step) = Lookup::start(&[], &me(), b"key", 3);
    let Step::Over(outcome) = step else { panic!("{step:?}") };
    assert_eq!((outcome.complete, outcome.answered.len(), outcome.sent), (true, 0, 0));
    assert_eq!(lookup.next().1, Next::Over(outcome));
}
