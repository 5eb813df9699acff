//! Lookups: whom they ask, when they are over, and what they refuse.

use starterbell::lookup::{Lookup, Step};
use starterbell::message::{Draft, Kind, Message, Named};
use starterbell::{Node, Peer, Refusal, Room};

fn bench(contacts: u8) -> Node {
    let mut node = Node::start(b"bench", &[], Room::default()).expect("a good id");
    for n in 0..contacts {
        node.seen(Peer::server(&[b'p', n], &[])).expect("room");
    }
    node
}

/// A FIND_NODE reply that names these ids.
fn naming(ids: &[&[u8]]) -> Vec<u8> {
    let peers: Vec<Named> = ids.iter().map(|&id| Named { id, ..Named::default() }).collect();
    let bytes = Draft { closer_peers: &peers, ..Draft::new(Kind::FindNode) }.to_vec().expect("within the limits");
    let prefix = bytes.iter().position(|byte| byte & 0x80 == 0).expect("a length") + 1;
    bytes[prefix..].to_vec()
}

/// Asks whom the lookup names until it waits.
fn ask(lookup: &mut Lookup) -> Vec<Vec<u8>> {
    let mut asked = Vec::new();
    while let Step::Ask(id) = lookup.next().expect("in form") {
        asked.push(id.to_vec());
    }
    asked
}

#[test]
fn nobody_to_ask() {
    let mut lookup = Lookup::start(&bench(0), b"key", 3).expect("a good key");
    assert!(lookup.is_over());
    assert!(matches!(lookup.next(), Ok(Step::Complete(outcome)) if outcome.requests() == 0 && outcome.peers().len() == 0));
}

#[test]
fn asks_nobody_who_is_doubtful() {
    let mut node = bench(2);
    node.doubt(b"p\0").expect("a contact");
    assert_eq!(ask(&mut Lookup::start(&node, b"p\0", 3).expect("a good key")), [b"p\x01"]);
    node.doubt(b"p\x01").expect("a contact");
    assert!(Lookup::start(&node, b"key", 3).expect("a good key").is_over(), "with nobody left to ask");
}

#[test]
fn refused_starts() {
    let node = bench(1);
    assert_eq!(Lookup::start(&node, b"", 3).err(), Some(Refusal::BreaksRules));
    assert_eq!(Lookup::start(&node, &[1; 129], 3).err(), Some(Refusal::BreaksRules));
    assert_eq!(Lookup::start(&node, b"key", 0).err(), Some(Refusal::BadConcurrency));
    assert_eq!(Lookup::start(&node, b"key", 11).err(), Some(Refusal::BadConcurrency));
}

#[test]
fn keeps_its_limit_and_asks_nobody_twice() {
    let node = bench(10);
    let mut lookup = Lookup::start(&node, b"key", 3).expect("a good key");
    assert_eq!((lookup.key(), lookup.is_over()), (&b"key"[..], false));
    let mut asked = ask(&mut lookup);
    assert_eq!(asked.len(), 3);
    assert_eq!(lookup.in_flight().collect::<Vec<_>>(), asked, "nearest first");
    let nearest: Vec<_> = node.nearest(b"key").expect("a good key").iter().map(|contact| contact.id().to_vec()).collect();
    let reply = naming(&[b"new one", b"bench", b"p\0"]);
    let mut done = 0;
    while !lookup.is_over() {
        lookup.reply(&node, &asked[done], &Message::read(&reply).expect("a reply")).expect("it was asked");
        done += 1;
        asked.extend(ask(&mut lookup));
    }
    assert_eq!(asked.len(), 11, "ten contacts and the new one");
    let Ok(Step::Complete(outcome)) = lookup.next() else { panic!("over") };
    assert_eq!((outcome.requests(), outcome.peers().len()), (11, 11));
    let known: Vec<_> = outcome.peers().filter(|id| *id != b"new one").collect();
    assert_eq!(known, nearest);
}

#[test]
fn failures_are_left_out() {
    let node = bench(2);
    let mut lookup = Lookup::start(&node, b"key", 3).expect("a good key");
    let asked = ask(&mut lookup);
    let reply = naming(&[]);
    let message = Message::read(&reply).expect("a reply");
    assert_eq!(lookup.reply(&node, b"stranger", &message), Err(Refusal::NotInFlight));
    assert_eq!(lookup.reply(&node, b"bench", &message), Err(Refusal::BadPeer));
    lookup.failure(&node, &asked[0]).expect("it was asked");
    assert_eq!(lookup.reply(&node, &asked[0], &message), Err(Refusal::NotInFlight), "failed for good");
    lookup.reply(&node, &asked[1], &message).expect("it was asked");
    assert_eq!(lookup.failure(&node, &asked[1]), Err(Refusal::LookupOver));
    assert!(matches!(lookup.next(), Ok(Step::Complete(outcome)) if outcome.requests() == 2 && outcome.peers().eq([&asked[1]])));
}

#[test]
fn another_type_is_a_failure() {
    let node = bench(1);
    let mut lookup = Lookup::start(&node, b"key", 3).expect("a good key");
    let asked = ask(&mut lookup);
    lookup.reply(&node, &asked[0], &Message::read(&[8, 5]).expect("a PING")).expect("it was asked");
    assert!(matches!(lookup.next(), Ok(Step::Complete(outcome)) if outcome.peers().len() == 0));
}

#[test]
fn too_many_names_cut_it_short() {
    let node = bench(20);
    let mut lookup = Lookup::start(&node, b"key", 10).expect("a good key");
    let mut round = 0u32;
    while !lookup.is_over() {
        ask(&mut lookup);
        let sender = lookup.in_flight().next().expect("somebody is asked").to_vec();
        let names: Vec<_> = (0..20).map(|n| (round * 20 + n).to_be_bytes()).collect();
        let reply = naming(&names.iter().map(|name| &name[..]).collect::<Vec<_>>());
        lookup.reply(&node, &sender, &Message::read(&reply).expect("a reply")).expect("it was asked");
        round += 1;
    }
    assert!(matches!(lookup.next(), Ok(Step::CutShort(outcome)) if outcome.requests() <= 256 && outcome.peers().len() == 20));
}
