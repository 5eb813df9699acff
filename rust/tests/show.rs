//! What is printed: ids and keys as text where they are text, counts for the rest, and never the memory itself.

use starterbell::lookup::{Lookup, Step};
use starterbell::message::{Draft, Kind, Message, Named, Record};
use starterbell::recipe::{Format, Recipe, Setpoint};
use starterbell::{Event, Node, Peer, Room};

fn bench() -> Node {
    let mut node = Node::start(b"bench-1", &[b"/ip4/10.0.0.1/tcp/4001"], Room::MOST).expect("a good id");
    node.seen(Peer::server(b"bench-2", &[b"/two"])).expect("room");
    node.seen(Peer::server(&[0, 255], &[])).expect("room");
    node.doubt(b"bench-2").expect("a contact");
    node.put(b"/wind/g", &Recipe::default().to_value().expect("a recipe")).expect("room");
    node
}

#[test]
fn a_box_and_its_contacts() {
    let node = bench();
    assert_eq!(format!("{node:?}"), r#"Node { id: "bench-1", addresses: ["/ip4/10.0.0.1/tcp/4001"], contacts: 2 of 5120, doubtful: 1, records: 1 of 256 }"#);
    let mut contacts: Vec<String> = node.contacts().map(|contact| format!("{contact:?}")).collect();
    contacts.sort();
    assert_eq!(contacts[0], r#"Contact { id: "bench-2", addresses: ["/two"], rank: 0, doubtful: true }"#);
    assert!(contacts[1].starts_with("Contact { id: 0x00ff, addresses: [], rank: "), "{}", contacts[1]);
    assert_eq!(format!("{:?}", node.records().next()), r#"Some(Record { key: "/wind/g", value: 16 bytes })"#);
    assert_eq!(
        format!("{:?}", Peer::client(b"say \"hi\"", &[&[1], b"a", b"caf\xc3\xa9"])),
        r#"Peer { id: "say \"hi\"", addresses: [0x01, "a", 0x636166c3a9], mode: Client }"#
    );
}

#[test]
fn a_connection_and_what_comes() {
    let mut node = bench();
    let mut connection = node.accept(Peer::client(b"someone", &[])).expect("a good id");
    let at = |connection: &dyn std::fmt::Debug, at: &str| {
        assert_eq!(format!("{connection:?}"), format!(r#"Connection {{ peer: "someone", mode: Client, side: Serving, at: {at} }}"#));
    };
    at(&connection, "between messages");
    let received = format!("{:?}", node.receive(&mut connection, &[2, 8, 5]));
    assert_eq!(received, "Received { taken: 3, event: Reply(3 bytes), seen: None }");
    assert_eq!(format!("{:?}", node.receive(&mut connection, &[0x90]).event), "More");
    at(&connection, "inside a length");
    let _ = node.receive(&mut connection, &[1, 8]);
    at(&connection, "1 of 144 bytes of a message");
    assert!(node.end(&mut connection).is_err());
    at(&connection, "shut");
    assert_eq!(format!("{:?}", node.receive(&mut connection, &[1]).event), "Refused(Shut)");
    let mut asking = node.connect(Peer::server(b"bench-2", &[])).expect("a good id");
    let Event::Heard(message) = node.receive(&mut asking, &[2, 8, 5]).event else { panic!("a message") };
    let said = r#"Message { kind: Ping, key: "", record: None, closer_peers: 0, provider_peers: 0, body: 2 bytes }"#;
    assert_eq!(format!("{message:?}"), said);
    assert_eq!(format!("{:?}", Event::Heard(message)), format!("Heard({said})"));
}

#[test]
fn messages() {
    let named = [Named { id: b"a", addresses: &[b"/a", b"/b"], ..Named::default() }, Named { id: &[7; 64], ..Named::default() }];
    assert_eq!(format!("{:?}", named[0]), r#"Named { id: "a", addresses: ["/a", "/b"], connection: NotConnected }"#);
    let record = Some(Record { key: b"AB", value: &[0; 3_072] });
    let draft = Draft { key: b"AB", record, closer_peers: &named, ..Draft::new(Kind::GetValue) };
    let record = r#"record: Some(Record { key: "AB", value: 3072 bytes })"#;
    assert_eq!(format!("{draft:?}"), format!(r#"Draft {{ kind: GetValue, key: "AB", {record}, closer_peers: 2, provider_peers: 0 }}"#));
    let bytes = draft.to_vec().expect("within the limits");
    let message = Message::read(&bytes[2..]).expect("well formed");
    let body = format!("body: {} bytes", message.body().len());
    assert_eq!(format!("{message:?}"), format!(r#"Message {{ kind: GetValue, key: "AB", {record}, closer_peers: 2, provider_peers: 0, {body} }}"#));
    let mut entries = message.closer_peers();
    assert_eq!(format!("{entries:?}"), "Entries { left: 2 }");
    let entry = entries.next().expect("two are named");
    assert_eq!(format!("{entry:?}"), r#"Entry { id: "a", connection: NotConnected, addresses: 2 }"#);
    assert_eq!(format!("{:?}", entry.addresses()), r#"Addresses { of: "a", left: 2 }"#);
}

#[test]
fn lookups() {
    let node = bench();
    let mut lookup = Lookup::start(&node, b"/wind/g", 3).expect("a good key");
    assert_eq!(format!("{lookup:?}"), r#"Lookup { key: "/wind/g", over: false, idle: 1, in_flight: [], answered: 0, failed: 0 }"#);
    assert_eq!(format!("{:?}", lookup.next().expect("in form")), "Ask(0x00ff)");
    assert_eq!(format!("{lookup:?}"), r#"Lookup { key: "/wind/g", over: false, idle: 0, in_flight: [0x00ff], answered: 0, failed: 0 }"#);
    assert_eq!(format!("{:?}", lookup.next().expect("in form")), "Wait");
    lookup.reply(&node, &[0, 255], &Message::read(&[8, 4]).expect("a reply")).expect("it was asked");
    assert_eq!(format!("{:?}", lookup.next().expect("in form")), "Complete(Outcome { requests: 1, peers: [0x00ff] })");
    assert!(matches!(lookup.next(), Ok(Step::Complete(_))));
    assert_eq!(format!("{lookup:?}"), r#"Lookup { key: "/wind/g", over: true, idle: 0, in_flight: [], answered: 1, failed: 0 }"#);
}

#[test]
fn recipes() {
    let wrap = vec![Setpoint { turn: 0, trim: 250 }, Setpoint { turn: 900, trim: -40 }];
    let recipe = Recipe { note: b"silver".to_vec(), wrap, sequence: 7, ..Recipe::default() };
    assert_eq!(format!("{recipe:?}"), r#"Recipe { format: One, note: "silver", wrap: {0: 250, 900: -40}, core: {}, sequence: 7 }"#);
    let recipe = Recipe { format: Format::Two, core: vec![Setpoint { turn: 3, trim: -1 }], ..recipe };
    assert_eq!(format!("{recipe:?}"), r#"Recipe { format: Two, note: "silver", wrap: {0: 250, 900: -40}, core: {3: -1}, sequence: 7 }"#);
}

/// Whoever sends a message chooses what stands in it, and its length.
#[test]
fn what_a_sender_makes_long_is_cut() {
    let id = [b'x'; 16_000];
    let size = |n: usize| [n as u8 | 0x80, (n >> 7) as u8]; // a varint of two bytes
    let peer = [&[10][..], &size(id.len()), &id].concat();
    let body = [&[8, 4, 66][..], &size(peer.len()), &peer].concat();
    let message = Message::read(&body).expect("well formed");
    let entry = message.closer_peers().next().expect("one is named");
    assert_eq!(entry.id().len(), 16_000);
    let shown = format!("{entry:?} {:?} {message:?}", entry.addresses());
    assert!(shown.contains("xxxx\".. (16000 bytes)") && shown.len() < 500, "{shown}");
}
