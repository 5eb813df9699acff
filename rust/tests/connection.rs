//! Connections: requests and their replies, cut anywhere.

use starterbell::message::{Draft, Kind, Message};
use starterbell::recipe::{Broken, Format, Part, Recipe, Rule, Setpoint};
use starterbell::{Event, Mode, Node, Peer, Refusal, Room, Seen, Side};

fn bench() -> Node {
    let mut node = Node::start(b"bench", &[b"/bench"], Room::default()).expect("a good id");
    for n in 0..30u8 {
        node.seen(Peer::server(&[b'p', n], &[&[n + 1]])).expect("room");
    }
    node
}

/// A connection's bytes: several requests, one right after another.
fn requests() -> Vec<u8> {
    let value = Recipe { sequence: 4, ..Recipe::default() }.to_value().expect("a recipe");
    let drafts = [
        Draft::ping(),
        Draft::find_node(b"bench"),
        Draft::put_value(b"/wind/g", &value),
        Draft::get_value(b"/wind/g"),
        Draft::get_value(b"/wind/no"),
        Draft::find_node(b"asker"),
    ];
    drafts.iter().flat_map(|draft| draft.to_vec().expect("within the limits")).collect()
}

/// All replies to bytes that come in pieces of one size.
fn replies(bytes: &[u8], size: usize) -> (Vec<u8>, Result<(), Refusal>) {
    let mut node = bench();
    let mut connection = node.accept(Peer::server(b"asker", &[b"/asker"])).expect("a good id");
    let mut sent = Vec::new();
    for piece in bytes.chunks(size) {
        let told = node.feed(&mut connection, piece, |_, received| match received.event {
            Event::Reply(reply) => sent.extend_from_slice(reply),
            other => panic!("{other:?} on the serving side"),
        });
        if told.is_err() {
            assert!(connection.is_shut());
            return (sent, told);
        }
    }
    (sent, node.end(&mut connection))
}

#[test]
fn cuts_change_nothing() {
    let bytes = requests();
    let whole = replies(&bytes, bytes.len());
    assert_eq!(whole.1, Ok(()));
    assert!(whole.0.len() > 1_000);
    for size in [1, 2, 3, 7, 64] {
        assert_eq!(replies(&bytes, size), whole, "pieces of {size}");
    }
}

#[test]
fn refuses_by_number() {
    let cases: [(&[u8], Refusal); 10] = [
        (&[0x80, 0], Refusal::PrefixNotMinimal),
        (&[0x81, 0x80, 1], Refusal::TooLong),
        (&[1, 3], Refusal::Malformed),
        (&[2, 8, 6], Refusal::UnknownType),
        (&[2, 8, 2], Refusal::Providers),
        (&[0], Refusal::BreaksRules),
        (&[2, 8, 4], Refusal::BreaksRules),
        (&[22, 8, 0, 18, 7, 47, 119, 105, 110, 100, 47, 103, 26, 9, 10, 7, 47, 119, 105, 110, 100, 47, 103], Refusal::BrokenRecipe),
        (&[5, 8, 5], Refusal::EndedInside),
        (&[0x80], Refusal::EndedInside),
    ];
    for (bytes, refusal) in cases {
        for size in [1, bytes.len()] {
            assert_eq!(replies(bytes, size), (vec![], Err(refusal)), "{bytes:?}");
        }
    }
}

#[test]
fn a_refusal_shuts_the_connection_and_keeps_what_came_before() {
    let bytes = [Draft::ping().to_vec().expect("short"), vec![2, 8, 6, 2, 8, 5]].concat();
    let (sent, told) = replies(&bytes, bytes.len());
    assert_eq!((&sent[..], told), (&[2, 8, 5][..], Err(Refusal::UnknownType)));

    let mut node = bench();
    let mut connection = node.accept(Peer::client(b"asker", &[])).expect("a good id");
    assert!(!connection.is_shut());
    node.end(&mut connection).expect("between messages");
    assert!(connection.is_shut());
    let received = node.receive(&mut connection, &[2, 8, 5]);
    assert!(matches!((received.taken, received.event), (0, Event::Refused(Refusal::Shut))));
    assert_eq!(node.end(&mut connection), Err(Refusal::Shut));
}

#[test]
fn a_sender_is_seen_if_it_is_a_server() {
    let mut node = bench();
    let ping = Draft::ping().to_vec().expect("short");
    let mut client = node.accept(Peer::client(b"client", &[])).expect("a good id");
    assert!(node.receive(&mut client, &ping).seen.is_none());
    let mut server = node.accept(Peer::server(b"server", &[b"/server"])).expect("a good id");
    assert!(matches!(node.receive(&mut server, &ping).seen, Some(Ok(Seen::Joined(contact))) if contact.addresses().eq([b"/server"])));
    assert!(matches!(node.receive(&mut server, &ping).seen, Some(Ok(Seen::Moved(_)))));
    assert_eq!((server.mode(), server.side(), server.peer().id()), (Mode::Server, Side::Serving, &b"server"[..]));

    let mut full = Node::start(b"full", &[], Room { contacts: 0, records: 0 }).expect("a good id");
    let mut server = full.accept(Peer::server(b"server", &[])).expect("a good id");
    assert!(matches!(full.receive(&mut server, &ping).seen, Some(Err(Refusal::NoContactSlot))), "which refuses nothing");
}

/// The entries of the reply to a request by a server: ids and first addresses.
fn closer(node: &mut Node, id: &[u8], request: &Draft) -> Vec<(Vec<u8>, Vec<u8>)> {
    let mut connection = node.accept(Peer::server(id, &[b"/open"])).expect("a good id");
    let mut entries = Vec::new();
    let told = node.feed(&mut connection, &request.to_vec().expect("short"), |_, received| {
        if let Event::Reply(reply) = received.event {
            let message = Message::read(&reply[2..]).expect("a reply");
            entries = message.closer_peers().map(|peer| (peer.id().to_vec(), peer.addresses().next().expect("an address").to_vec())).collect();
        }
    });
    assert_eq!(told, Ok(()));
    entries
}

#[test]
fn a_doubtful_requester_is_the_last_entry_and_doubtful_no_more() {
    let mut node = bench();
    let ask = Draft::find_node(b"p\x07");
    node.doubt(b"p\x07").expect("a contact");
    for request in [&ask, &Draft::get_value(b"p\x07")] {
        let other = closer(&mut node, b"somebody", request);
        assert!(other.len() == 20 && other.iter().all(|(id, _)| id != b"p\x07"), "nobody else is sent there");
    }
    let own = closer(&mut node, b"p\x07", &ask);
    let entry = (b"p\x07".to_vec(), b"/open".to_vec());
    assert_eq!((own.len(), &own[20]), (21, &entry), "the extra entry");
    let again = closer(&mut node, b"p\x07", &ask);
    assert_eq!((again.len(), &again[0]), (20, &entry), "it was seen");
}

#[test]
fn opens_only_to_peers() {
    let node = bench();
    for id in [&b""[..], b"bench", &[1; 65]] {
        assert_eq!(node.accept(Peer::server(id, &[])).err(), Some(Refusal::BadPeer));
        assert_eq!(node.connect(Peer::server(id, &[])).err(), Some(Refusal::BadPeer));
    }
}

#[test]
fn what_we_asked_for_is_heard() {
    let (bytes, _) = replies(&requests(), 4_096);
    let mut node = bench();
    let mut connection = node.connect(Peer::server(b"other", &[])).expect("a good id");
    assert_eq!(connection.side(), Side::Asking);
    let mut heard = Vec::new();
    for piece in bytes.chunks(5) {
        let told = node.feed(&mut connection, piece, |_, received| match received.event {
            Event::Heard(message) => heard.push((message.kind(), message.closer_peers().count(), message.record().map(|record| record.key.to_vec()))),
            other => panic!("{other:?} on the asking side"),
        });
        assert_eq!(told, Ok(()));
    }
    let key = Some(b"/wind/g".to_vec());
    let kinds = [Kind::Ping, Kind::FindNode, Kind::PutValue, Kind::GetValue, Kind::GetValue, Kind::FindNode];
    assert_eq!(heard.iter().map(|message| message.0).collect::<Vec<_>>(), kinds);
    assert_eq!((heard[1].1, heard[3].1), (21, 20), "FIND_NODE for the box itself adds it");
    assert_eq!((&heard[2].2, &heard[3].2, &heard[4].2), (&key, &key, &None));
}

#[test]
fn the_added_entry_has_its_addresses() {
    let (bytes, _) = replies(&Draft::find_node(b"bench").to_vec().expect("short"), 4_096);
    let message = Message::read(&bytes[2..]).expect("a reply");
    let last = message.closer_peers().last().expect("21 peers");
    assert_eq!((last.id(), last.addresses().collect::<Vec<_>>()), (&b"bench"[..], vec![&b"/bench"[..]]));
}

const KEY: &[u8] = b"/wind/d";

/// A length of under 16,384, and the bytes after it.
fn measured(bytes: &[u8]) -> Vec<u8> {
    let (low, high) = (bytes.len() as u8 & 0x7f, (bytes.len() >> 7) as u8);
    if high == 0 {
        [&[low], bytes].concat()
    } else {
        [&[low | 0x80, high], bytes].concat()
    }
}

fn field(number: u8, bytes: &[u8]) -> Vec<u8> {
    [vec![number << 3 | 2], measured(bytes)].concat()
}

/// A PUT_VALUE whose record comes in several fields, with its length before it.
fn split_put(occurrences: &[&[u8]]) -> Vec<u8> {
    let mut body = field(2, KEY);
    occurrences.iter().for_each(|occurrence| body.extend(field(3, occurrence)));
    measured(&body)
}

/// What a box sends back to bytes that come in some pieces, how its connection ends, and the value that it then holds under the key.
fn told<'a>(pieces: impl IntoIterator<Item = &'a [u8]>) -> (Vec<u8>, Result<(), Refusal>, Option<Vec<u8>>) {
    let mut node = bench();
    let mut connection = node.accept(Peer::client(b"partner", &[])).expect("a good id");
    let mut sent = Vec::new();
    let mut end = Ok(());
    for piece in pieces {
        end = end.and(node.feed(&mut connection, piece, |_, received| match received.event {
            Event::Reply(reply) => sent.extend_from_slice(reply),
            other => panic!("{other:?} on the serving side"),
        }));
    }
    let end = end.and_then(|()| node.end(&mut connection));
    (sent, end, node.find(KEY).expect("in form").map(<[u8]>::to_vec))
}

#[test]
fn a_record_in_two_fields_is_stored_echoed_and_found() {
    let value = Recipe { sequence: 4, ..Recipe::default() }.to_value().expect("a recipe");
    let other = Recipe { sequence: 9, ..Recipe::default() }.to_value().expect("a recipe");
    let (key_field, value_field) = (field(1, KEY), field(2, &value));
    let puts: [&[&[u8]]; 5] = [
        &[&key_field, &value_field],
        &[&value_field, &key_field],
        &[&[], &key_field, &[], &value_field, &[]],
        &[&field(1, b"/wind/e"), &[field(2, &other), key_field.clone()].concat(), &value_field],
        &[&[field(7, b"?"), key_field.clone()].concat(), &[field(5, b"today"), value_field.clone()].concat()],
    ];
    // what a box tells of the same put with its record in one field
    let request = Draft::put_value(KEY, &value).to_vec().expect("within the limits");
    let echo = (request.clone(), Ok(()), Some(value));
    assert_eq!(told([&request[..]]), echo);
    for put in puts {
        let bytes = split_put(put);
        assert_eq!(told(bytes.chunks(1)), echo, "{put:?} byte by byte");
        for cut in 0..=bytes.len() {
            assert_eq!(told([&bytes[..cut], &bytes[cut..]]), echo, "{put:?} cut at {cut}");
        }
        let asked = [bytes, Draft::get_value(KEY).to_vec().expect("short")].concat();
        let (sent, end, _) = told([&asked[..]]);
        let reply = Message::read(&sent[request.len() + 2..]).expect("a reply to GET_VALUE, with a length of two bytes");
        assert_eq!((end, reply.record().map(|record| record.value)), (Ok(()), echo.2.as_deref()));
    }
}

#[test]
fn a_record_in_two_fields_is_judged_by_the_last_of_each() {
    let value = Recipe { sequence: 4, ..Recipe::default() }.to_value().expect("a recipe");
    let whole = [field(1, KEY), field(2, &value)].concat();
    let puts: [(&[&[u8]], Refusal); 7] = [
        (&[&whole, &field(1, b"")], Refusal::BreaksRules),
        (&[&whole, &field(1, &[KEY, &[b'!'; 122]].concat())], Refusal::BreaksRules),
        (&[&whole, &field(2, &[0; 3_073])], Refusal::BrokenRecipe),
        (&[&whole, &field(1, b"/wind/e")], Refusal::BreaksRules),
        (&[&whole, &field(2, b"")], Refusal::BrokenRecipe),
        (&[&field(1, KEY), &[]], Refusal::BrokenRecipe),
        (&[&whole[..5], &whole[5..]], Refusal::Malformed),
    ];
    for (put, refusal) in puts {
        let bytes = split_put(put);
        for cut in 0..=bytes.len() {
            assert_eq!(told([&bytes[..cut], &bytes[cut..]]), (vec![], Err(refusal), None), "{put:?} cut at {cut}");
        }
    }
}

/// A recipe that jumped 9 newtons snapped silver wrap: it is refused on the screen and from a peer, and the one that is held stays the one found.
#[test]
fn a_leap_is_refused_typed_and_sent() {
    let trims = [0, 2_000, 4_000];
    let wrap = trims.iter().zip(0..).map(|(&trim, turn)| Setpoint { turn, trim }).collect();
    let held = Recipe { note: b"silver".to_vec(), wrap, sequence: 4, ..Recipe::default() };
    let value = held.to_value().expect("a recipe");
    let mut node = bench();
    assert_eq!(node.put(KEY, &value), Ok(()));
    // the newer version on the screen
    let mut newer = Recipe { sequence: 5, ..held };
    newer.wrap[2].trim = 11_000;
    assert_eq!(newer.to_value().err(), Some(Broken { rule: Rule::TrimLeaps, part: Part::Wrap, setpoint: Some(2) }));
    // a host that has no `Recipe` puts its bytes: zigzag 4,000 (A0 1F) and 22,000 (F0 AB 01)
    let leaper = [b"silver\x00\x00\x01\xa0\x1f\x02\xf0\xab\x01".as_slice(), &[25, 0, 0, 0, 3, 0, 1, 0, 5, 0, 0, 0, 0, 0, 0, 0]].concat();
    assert_eq!(node.put(KEY, &leaper), Err(Refusal::BrokenRecipe));
    let request = Draft::put_value(KEY, &leaper).to_vec().expect("within the limits");
    for size in 1..=request.len() {
        let mut connection = node.accept(Peer::server(b"asker", &[])).expect("a good id");
        let fed = request.chunks(size).try_for_each(|piece| node.feed(&mut connection, piece, |_, received| panic!("{:?}", received.event)));
        assert_eq!((fed, connection.is_shut()), (Err(Refusal::BrokenRecipe), true), "pieces of {size}");
        assert_eq!(node.find(KEY), Ok(Some(&value[..])));
    }
    let mut found = None;
    let mut connection = node.accept(Peer::client(b"asker", &[])).expect("a good id");
    let asked = Draft::get_value(KEY).to_vec().expect("short");
    let fed = node.feed(&mut connection, &asked, |_, received| {
        let Event::Reply(reply) = received.event else { panic!("{:?} on the serving side", received.event) };
        found = Message::read(&reply[2..]).expect("a length of two bytes").record().map(|record| record.value.to_vec());
    });
    assert_eq!((fed, found), (Ok(()), Some(value)));
}

// ---- recipes at their limits

/// A key of 128 bytes.
fn long_key() -> Vec<u8> {
    [&b"/wind/"[..], &[b'k'; 122]].concat()
}

/// So many setpoints of six bytes, and a note whose bytes are unlike their neighbours: a value of so many bytes, whatever the rules say of it.
fn cello(count: usize, bytes: usize) -> Vec<u8> {
    let note = (0..bytes - 16 - 6 * count).map(|n| (n % 251) as u8);
    let setpoints = (0..count).flat_map(|n| [(n & 0x7f) as u8 | 0x80, (n >> 7) as u8 | 0xc0, 0x3c, 0xc0, 0xb8, 2]);
    let trailer = [&(16 + 6 * count as u32).to_le_bytes()[..], &(count as u16).to_le_bytes(), &[1, 0, 9, 0, 0, 0, 0, 0, 0, 0]].concat();
    note.chain(setpoints).chain(trailer).collect()
}

/// A box with twenty contacts that have all that a contact can have.
fn crowded() -> Node {
    let mut node = Node::start(b"crowded", &[], Room { contacts: 20, records: 1 }).expect("a good id");
    for n in 0..20 {
        node.seen(Peer::server(&[n; 64], &[&[b'/'; 128][..]; 4])).expect("room");
    }
    node
}

/// What a box replies to a request that comes in pieces of a size.
fn reply(node: &mut Node, request: &[u8], size: usize) -> Result<Vec<u8>, Refusal> {
    let mut connection = node.accept(Peer::client(b"asker", &[])).expect("a good id");
    let mut sent = Vec::new();
    for piece in request.chunks(size) {
        node.feed(&mut connection, piece, |_, received| match received.event {
            Event::Reply(reply) => sent.extend_from_slice(reply),
            other => panic!("{other:?} on the serving side"),
        })?;
    }
    Ok(sent)
}

/// The value that one bench reads in another's reply, which comes in pieces of a size; and how long the reply's body is.
fn read(reply: &[u8], size: usize) -> (Vec<u8>, usize) {
    let mut asker = bench();
    let mut connection = asker.connect(Peer::server(b"crowded", &[])).expect("a good id");
    let mut heard = Vec::new();
    for piece in reply.chunks(size) {
        let fed = asker.feed(&mut connection, piece, |_, received| match received.event {
            Event::Heard(message) => heard.push((message.record().expect("a record").value.to_vec(), message.body().len())),
            other => panic!("{other:?} on the asking side"),
        });
        assert_eq!(fed, Ok(()));
    }
    assert_eq!(heard.len(), 1);
    heard.remove(0)
}

/// Nobody reads a recipe short: typed or sent, however its bytes are cut, it is echoed, found, served and read by who asked for it as it was put.
#[test]
fn the_longest_recipes_are_read_whole() {
    let key = long_key();
    let ask = Draft::get_value(&key).to_vec().expect("short");
    for (count, bytes) in [(0, 16), (200, 2_048), (0, 2_049), (201, 2_048), (201, 2_049), (400, 2_416), (0, 3_072), (400, 3_072)] {
        let value = cello(count, bytes);
        let put = Draft::put_value(&key, &value).to_vec().expect("within the limits");
        for size in [1, 7, 1_000, 2_048, 4_096, 20_000] {
            let [mut typed, mut sent] = [crowded(), crowded()];
            assert_eq!(typed.put(&key, &value), Ok(()));
            assert_eq!(reply(&mut sent, &put, size).as_ref(), Ok(&put), "the echo");
            for node in [&mut typed, &mut sent] {
                assert_eq!(node.find(&key), Ok(Some(&value[..])), "{count} setpoints, {bytes} bytes");
                let served = reply(node, &ask, size).expect("a reply");
                assert_eq!(read(&served, size).0, value, "{count} setpoints, {bytes} bytes, pieces of {size}");
            }
        }
    }
}

#[test]
fn the_largest_messages_have_the_sizes_that_are_stated() {
    let (key, value) = (long_key(), cello(400, 3_072));
    let mut node = crowded();
    let echo = reply(&mut node, &Draft::put_value(&key, &value).to_vec().expect("within the limits"), 4_096).expect("taken");
    assert_eq!(echo.len(), 2 + 3_342, "a length of two bytes, and the body");
    let largest = reply(&mut node, &Draft::get_value(&key).to_vec().expect("short"), 4_096).expect("a reply");
    assert_eq!((largest.len(), read(&largest, 4_096)), (2 + 15_111, (value, 15_111)));
}

/// Past a limit it is refused, typed and sent, and what is held stays.
#[test]
fn what_is_past_a_limit_is_refused_typed_and_sent() {
    let (key, held) = (long_key(), cello(400, 3_072));
    let mut node = crowded();
    assert_eq!(node.put(&key, &held), Ok(()));
    for (count, bytes) in [(0, 3_073), (400, 3_073), (401, 3_072), (401, 2_422)] {
        let mut value = cello(count, bytes);
        let sequence = value.len() - 8;
        value[sequence] = 10;
        assert_eq!(node.put(&key, &value), Err(Refusal::BrokenRecipe));
        let record = [field(1, &key), field(2, &value)].concat();
        let request = measured(&[field(2, &key), field(3, &record)].concat());
        assert_eq!(Draft::put_value(&key, &value).to_vec().is_ok(), bytes <= 3_072, "the writer looks at the length alone");
        for size in [1, 1_000, 20_000] {
            assert_eq!(reply(&mut node, &request, size), Err(Refusal::BrokenRecipe), "{count} setpoints, {bytes} bytes, pieces of {size}");
            assert_eq!(node.find(&key), Ok(Some(&held[..])));
        }
    }
}

// ---- two spools

/// A recipe for two spools, with so many setpoints of six bytes in each list, and a value of so many bytes.
fn for_two(core: u32, wrap: u32, bytes: usize) -> Vec<u8> {
    let list = |count, trim| (0..count).map(|n| Setpoint { turn: 900_000 + n, trim }).collect();
    let note = (0..bytes - 24 - 6 * (core + wrap) as usize).map(|n| (n % 251) as u8).collect();
    let recipe = Recipe { format: Format::Two, note, core: list(core, -20_000), wrap: list(wrap, 20_000), sequence: 9 };
    recipe.to_value().expect("within the limits")
}

/// Typed or sent, however its bytes are cut, it is echoed, found, served and read by who asked for it as it was put.
#[test]
fn recipes_for_two_spools_are_read_whole() {
    let key = long_key();
    let ask = Draft::get_value(&key).to_vec().expect("short");
    for (core, wrap, bytes) in [(0, 0, 24), (1, 1, 36), (400, 0, 2_424), (0, 400, 2_424), (254, 254, 3_072), (108, 400, 3_072), (0, 0, 3_072)] {
        let value = for_two(core, wrap, bytes);
        assert_eq!(value.len(), bytes);
        let put = Draft::put_value(&key, &value).to_vec().expect("within the limits");
        for size in [1, 7, 1_000, 20_000] {
            let [mut typed, mut sent] = [crowded(), crowded()];
            assert_eq!(typed.put(&key, &value), Ok(()));
            assert_eq!(reply(&mut sent, &put, size).as_ref(), Ok(&put), "the echo");
            for node in [&mut typed, &mut sent] {
                assert_eq!(node.find(&key), Ok(Some(&value[..])), "{core} and {wrap} setpoints, {bytes} bytes");
                let read = read(&reply(node, &ask, size).expect("a reply"), size).0;
                assert_eq!(read, value, "{core} and {wrap} setpoints, {bytes} bytes, pieces of {size}");
                let read = Recipe::from_value(&read).expect("a recipe");
                assert_eq!((read.core.len(), read.wrap.len()), (core as usize, wrap as usize));
            }
        }
    }
}

/// Broken spools are refused, typed and sent, and what is held stays, of either format.
#[test]
fn broken_spools_are_refused_typed_and_sent() {
    let good = for_two(2, 3, 60);
    let changes: [(usize, u8, Broken); 5] = [
        (18, 1, Broken { rule: Rule::PadNotZero, part: Part::Whole, setpoint: None }),
        (17, 0x80, Broken { rule: Rule::PadNotZero, part: Part::Whole, setpoint: None }),
        (16, 23, Broken { rule: Rule::BadDistance, part: Part::Wrap, setpoint: None }),
        (24, 61, Broken { rule: Rule::BadDistance, part: Part::Core, setpoint: None }),
        (10, 3, Broken { rule: Rule::UnknownFormat, part: Part::Whole, setpoint: None }),
    ];
    for held in [for_two(1, 1, 36), cello(1, 22)] {
        let mut node = bench();
        assert_eq!(node.put(KEY, &held), Ok(()));
        for (from_end, byte, broken) in &changes {
            let mut value = good.clone();
            value[60 - from_end] = *byte;
            value[59] = 1; // it would outrank what is held
            assert_eq!(Recipe::from_value(&value), Err(*broken));
            assert_eq!(node.put(KEY, &value), Err(Refusal::BrokenRecipe));
            let request = Draft::put_value(KEY, &value).to_vec().expect("within the limits");
            for size in 1..=request.len() {
                assert_eq!(reply(&mut node, &request, size), Err(Refusal::BrokenRecipe), "{broken} in pieces of {size}");
                assert_eq!(node.find(KEY), Ok(Some(&held[..])));
            }
        }
    }
}

/// Numbers that look random, the same in every run.
fn numbers(mut seed: u64) -> impl FnMut(usize) -> usize {
    move |below| {
        seed = seed.wrapping_mul(6_364_136_223_846_793_005).wrapping_add(1_442_695_040_888_963_407);
        (seed >> 33) as usize % below
    }
}

#[test]
fn any_bytes_in_any_pieces() {
    let mut number = numbers(7);
    let good = requests();
    for _ in 0..500 {
        // requests with some bytes changed, from somewhere on
        let mut bytes = good[number(good.len())..].to_vec();
        for _ in 0..number(4) {
            let at = number(bytes.len());
            bytes[at] = number(256) as u8;
        }
        let whole = replies(&bytes, bytes.len());
        assert_eq!(replies(&bytes, 1 + number(40)), whole, "{bytes:?}");
    }
}
