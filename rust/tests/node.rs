//! The box: start, contacts, records.

use starterbell::{raw, Node, Peer, Probed, Refusal, Room, Seen, Settled};

const SMALL: Room = Room { contacts: 40, records: 2 };

fn bench() -> Node {
    Node::start(b"bench", &[b"/ip4/10.0.0.1"], SMALL).expect("a good id")
}

/// Ids of contacts that go to the box's bucket 0: their place differs from its own in the first bit.
fn far_ids(node: &Node) -> impl Iterator<Item = Vec<u8>> {
    let first = node.place()[0];
    let place = |id: &[u8]| {
        let mut other = Node::start(b"some other bench", &[], Room { contacts: 1, records: 0 }).expect("a good id");
        other.seen(Peer::server(id, &[])).expect("room for one");
        let place = other.contacts().next().expect("it joined").place()[0];
        place
    };
    (0u32..).map(|n| format!("peer {n}").into_bytes()).filter(move |id| (place(id) ^ first) & 0x80 != 0)
}

#[test]
fn starts_with_its_id_and_addresses() {
    let node = Node::start(b"bench", &[b"one", b"", b"two", &[7; 129], b"three", b"four", b"five"], SMALL).expect("a good id");
    assert_eq!(node.id(), b"bench");
    assert_eq!(node.addresses().collect::<Vec<_>>(), [&b"one"[..], b"two", b"three", b"four"], "the first four that are usable");
    assert_eq!(node.room(), SMALL);
    assert_eq!((node.contacts().count(), node.records().count()), (0, 0));
    // SHA-256 of "abc", FIPS 180-2
    assert_eq!(Node::start(b"abc", &[], SMALL).expect("a good id").place()[..4], [0xba, 0x78, 0x16, 0xbf]);
}

#[test]
fn refuses_an_id_that_is_none() {
    assert_eq!(Node::start(b"", &[], SMALL).err(), Some(Refusal::BadPeer));
    assert_eq!(Node::start(&[1; 65], &[], SMALL).err(), Some(Refusal::BadPeer));
    assert!(Node::start(&[1; 64], &[], SMALL).is_ok());
}

#[test]
fn takes_no_more_memory_than_it_can_use() {
    let most = Node::start(b"bench", &[], Room { contacts: 9_000, records: 9_000 }).expect("a good id");
    assert_eq!(most.room(), Room::MOST);
    assert_eq!(Room::MOST, Room { contacts: raw::MOST_CONTACTS, records: raw::MOST_RECORDS });
    let bytes = |room: Room| room.contacts * raw::CONTACT + room.records * raw::RECORD;
    assert_eq!((bytes(Room::MOST), bytes(Room::default())), (3_975_168, 363_008), "4.0 megabytes, 360 kilobytes");
}

#[test]
fn keeps_contacts() {
    let mut node = bench();
    assert!(matches!(node.seen(Peer::server(b"a", &[b"/a"])), Ok(Seen::Joined(c)) if c.id() == b"a" && c.addresses().eq([b"/a"])));
    assert!(matches!(node.seen(Peer::server(b"a", &[])), Ok(Seen::Moved(c)) if c.addresses().len() == 1), "no new address: the old one stays");
    assert_eq!(node.seen(Peer::client(b"b", &[])).err(), Some(Refusal::Client));
    assert_eq!(node.seen(Peer::server(b"", &[])).err(), Some(Refusal::BadPeer));
    assert_eq!(node.seen(Peer::server(b"bench", &[])).err(), Some(Refusal::BadPeer), "the box itself");
    assert_eq!(node.contacts().map(|contact| contact.id()).collect::<Vec<_>>(), [b"a"]);
    assert_eq!(node.remove(b"b"), Err(Refusal::NoLongerFits));
    assert_eq!(node.remove(b"a"), Ok(()));
    assert_eq!(node.contacts().count(), 0);
}

#[test]
fn refuses_contacts_without_room() {
    let mut node = Node::start(b"bench", &[], Room { contacts: 1, records: 0 }).expect("a good id");
    assert!(node.seen(Peer::server(b"a", &[])).is_ok());
    assert_eq!(node.seen(Peer::server(b"b", &[])).err(), Some(Refusal::NoContactSlot));
    assert!(node.seen(Peer::server(b"a", &[])).is_ok(), "a held one is never refused for room");
}

#[test]
fn a_full_bucket_names_its_head() {
    let mut node = bench();
    let ids: Vec<Vec<u8>> = far_ids(&node).take(22).collect();
    for id in &ids[..20] {
        assert!(matches!(node.seen(Peer::server(id, &[])), Ok(Seen::Joined(_))));
    }
    assert!(matches!(node.seen(Peer::server(&ids[20], &[])), Ok(Seen::Probe(head)) if head.id() == ids[0] && head.rank() == 0));
    assert_eq!(node.settle(&ids[0], Peer::server(&ids[20], &[]), Probed::Answered), Ok(Settled::Kept));
    assert_eq!(node.settle(&ids[0], Peer::server(&ids[20], &[]), Probed::Silent), Err(Refusal::NoLongerFits), "it is the tail now");
    assert_eq!(node.settle(&ids[1], Peer::server(&ids[20], &[]), Probed::Silent), Ok(Settled::Swapped));
    let held = |id: &[u8]| node.contacts().any(|contact| contact.id() == id);
    assert!(held(&ids[0]) && !held(&ids[1]) && held(&ids[20]) && !held(&ids[21]));
}

#[test]
fn passes_over_the_doubtful() {
    let mut node = bench();
    for n in 0..25u8 {
        node.seen(Peer::server(&[b'p', n], &[])).expect("room");
    }
    let ids = |node: &Node| node.nearest(b"p").expect("a good key").iter().map(|contact| contact.id().to_vec()).collect::<Vec<_>>();
    let before = ids(&node);
    for id in &before[..8] {
        assert_eq!((node.doubt(id), node.doubt(id)), (Ok(()), Ok(())), "twice is fine");
    }
    let after = ids(&node);
    assert_eq!((before.len(), after.len()), (20, 17), "of 25 contacts with the 8 nearest doubtful");
    assert_eq!(after[..12], before[8..]);
    assert_eq!(node.contacts().filter(|contact| contact.is_doubtful()).count(), 8);
    assert_eq!(node.doubt(b"nobody"), Err(Refusal::NoLongerFits));
    assert_eq!(node.doubt(b"bench"), Err(Refusal::BadPeer));
    assert!(matches!(node.seen(Peer::server(&before[0], &[])), Ok(Seen::Moved(contact)) if !contact.is_doubtful()));
    assert_eq!(ids(&node)[0], before[0], "given again");
}

#[test]
fn a_doubtful_head_is_probed_like_any_other() {
    let mut node = bench();
    let ids: Vec<_> = far_ids(&node).take(21).collect();
    for id in &ids[..20] {
        node.seen(Peer::server(id, &[])).expect("room");
    }
    node.doubt(&ids[0]).expect("a contact");
    let newcomer = Peer::server(&ids[20], &[]);
    assert!(matches!(node.seen(newcomer), Ok(Seen::Probe(head)) if head.id() == ids[0] && head.is_doubtful()));
    let client = Peer::client(&ids[20], &[]);
    assert_eq!(node.settle(&ids[0], client, Probed::Answered), Err(Refusal::Client));
    assert_eq!(node.settle(&ids[1], newcomer, Probed::Answered), Err(Refusal::NoLongerFits));
    assert_eq!(node.nearest(&ids[0]).expect("a good key").len(), 19, "a refused settle leaves the mark");
    assert_eq!(node.settle(&ids[0], newcomer, Probed::Answered), Ok(Settled::Kept));
    assert!(node.nearest(&ids[0]).is_ok_and(|near| near.len() == 20 && near[0].id() == ids[0] && near[0].rank() == 19), "it answered");
    node.doubt(&ids[1]).expect("a contact");
    assert_eq!(node.settle(&ids[1], newcomer, Probed::Silent), Ok(Settled::Swapped));
    assert_eq!(node.contacts().filter(|contact| contact.is_doubtful()).count(), 0, "who comes in for it isn't doubtful");
}

#[test]
fn nearest_first() {
    let mut node = bench();
    for n in 0..30u8 {
        let _ = node.seen(Peer::server(&[b'p', n], &[]));
    }
    let near = node.nearest(b"p").expect("a good key");
    assert_eq!(near.len(), 20);
    // the place of the key, from a box that has it as its id
    let target = *Node::start(b"p", &[], SMALL).expect("a good id").place();
    let far = |place: &[u8; 32]| std::array::from_fn::<u8, 32, _>(|i| place[i] ^ target[i]);
    assert!(near.windows(2).all(|pair| far(pair[0].place()) < far(pair[1].place())));
    let last = far(near[19].place());
    assert_eq!(node.contacts().filter(|contact| far(contact.place()) <= last).count(), 20, "and none nearer is left out");
    assert_eq!(node.nearest(b"").err(), Some(Refusal::BreaksRules));
    assert_eq!(node.nearest(&[1; 129]).err(), Some(Refusal::BreaksRules));
}

#[test]
fn keeps_records() {
    let mut node = bench();
    let value = |sequence: u8| [&[16, 0, 0, 0, 0, 0, 1, 0, sequence][..], &[0; 7]].concat();
    assert_eq!(node.find(b"/wind/g"), Ok(None));
    assert_eq!(node.put(b"/wind/g", &value(2)), Ok(()));
    assert_eq!(node.put(b"/wind/g", &value(1)), Err(Refusal::Outranked));
    assert_eq!(node.put(b"/wind/g", &value(2)), Ok(()), "identical bytes are accepted");
    assert_eq!(node.put(b"/wind/g", &value(3)), Ok(()));
    assert_eq!(node.put(b"/wind/d", &value(1)), Ok(()));
    assert_eq!(node.put(b"/wind/a", &value(1)), Err(Refusal::NoRecordSlot));
    assert_eq!(node.put(b"/wind/", &value(1)), Err(Refusal::BreaksRules));
    assert_eq!(node.put(b"/wind/g", &value(4)[1..]), Err(Refusal::BrokenRecipe));
    assert_eq!(node.find(b"/wind/g"), Ok(Some(&value(3)[..])));
    let records: Vec<_> = node.records().map(|record| (record.key.to_vec(), record.value.to_vec())).collect();
    assert_eq!(records, [(b"/wind/g".to_vec(), value(3)), (b"/wind/d".to_vec(), value(1))]);
}

#[test]
fn keeps_values_of_16_to_3_072_bytes() {
    let value = |length: usize, sequence: u8| [&vec![7; length - 16][..], &[16, 0, 0, 0, 0, 0, 1, 0, sequence], &[0; 7]].concat();
    let mut node = bench();
    for (length, sequence) in [(16, 1), (2_048, 2), (2_049, 3), (3_072, 4), (17, 5), (3_071, 6)] {
        let value = value(length, sequence);
        assert_eq!(node.put(b"/wind/g", &value), Ok(()), "{length} bytes");
        assert_eq!(node.find(b"/wind/g"), Ok(Some(&value[..])));
        assert_eq!(node.records().map(|record| record.value.to_vec()).collect::<Vec<_>>(), [value], "the same, and all of it");
    }
    for length in [3_073, 3_200, 5_000] {
        assert_eq!(node.put(b"/wind/g", &value(length, 7)), Err(Refusal::BrokenRecipe), "{length} bytes");
    }
    assert_eq!(node.find(b"/wind/g"), Ok(Some(&value(3_071, 6)[..])), "what was held stays");
}
