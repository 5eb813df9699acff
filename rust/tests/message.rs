//! Messages: what is written reads back, and limits are kept.

use starterbell::message::{ConnectionType, Draft, Kind, Message, Named, Record};
use starterbell::{raw, Refusal};

/// The body of a message, without its length.
fn body(bytes: &[u8]) -> &[u8] {
    let prefix = bytes.iter().position(|byte| byte & 0x80 == 0).expect("a length") + 1;
    &bytes[prefix..]
}

#[test]
fn what_is_written_reads_back() {
    let long = [9; 128];
    let closer = [
        Named { id: b"one", addresses: &[b"/a", b"", &long, b"/d"], connection: ConnectionType::CannotConnect },
        Named { id: b"", addresses: &[], connection: ConnectionType::Connected },
    ];
    let providers = [Named { id: &[7; 64], addresses: &[b"/p"], connection: ConnectionType::CanConnect }];
    let draft = Draft {
        key: b"key",
        record: Some(Record { key: b"other key", value: &[5; 3_072] }),
        closer_peers: &closer,
        provider_peers: &providers,
        ..Draft::new(Kind::GetProviders)
    };
    let bytes = draft.to_vec().expect("within the limits");
    let message = Message::read(body(&bytes)).expect("well formed");
    assert_eq!((message.kind(), message.key(), message.record()), (Kind::GetProviders, draft.key, draft.record));
    for (list, written) in [(message.closer_peers(), &closer[..]), (message.provider_peers(), &providers)] {
        let read: Vec<_> = list.collect();
        assert_eq!(read.len(), written.len());
        for (entry, named) in read.iter().zip(written) {
            assert_eq!((entry.id(), entry.connection()), (named.id, named.connection));
            assert_eq!(entry.addresses().collect::<Vec<_>>(), named.addresses);
        }
    }
}

#[test]
fn every_kind_reads_back() {
    for kind in Kind::ALL {
        let bytes = Draft::new(kind).to_vec().expect("short");
        let message = Message::read(body(&bytes)).expect("well formed");
        assert_eq!((message.kind(), message.key(), message.record()), (kind, &[][..], None));
        assert_eq!((message.closer_peers().count(), message.provider_peers().count()), (0, 0));
    }
}

#[test]
fn short_requests() {
    assert_eq!(Draft::ping().to_vec().expect("short"), [2, 8, 5]);
    assert_eq!(Draft::get_value(b"k").to_vec().expect("short"), [5, 8, 1, 18, 1, b'k']);
    assert_eq!(Draft::put_value(b"k", b"v").to_vec().expect("short"), [13, 8, 0, 18, 1, b'k', 26, 6, 10, 1, b'k', 18, 1, b'v']);
}

#[test]
fn over_a_limit_is_unwritable() {
    let id = Named { id: &[1; 65], ..Named::default() };
    let long_id = Named { id: &[1; 70_000], ..Named::default() };
    let five = Named { addresses: &[b"1", b"2", b"3", b"4", b"5"], ..Named::default() };
    let long_address = Named { addresses: &[&[1; 129]], ..Named::default() };
    let longest = Named { id: &[1; 64], addresses: &[&[1; 128][..]; 4], ..Named::default() };
    for peers in [vec![id], vec![long_id], vec![five], vec![long_address], vec![longest; 28]] {
        assert_eq!(Draft { closer_peers: &peers, ..Draft::ping() }.to_vec(), Err(Refusal::Unwritable));
        assert_eq!(Draft { provider_peers: &peers, ..Draft::ping() }.to_vec(), Err(Refusal::Unwritable));
    }
    assert!(Draft { closer_peers: &[longest; 27], ..Draft::ping() }.to_vec().is_ok());
    assert_eq!(Draft::find_node(&[1; 129]).to_vec(), Err(Refusal::Unwritable));
    assert_eq!(Draft::put_value(b"k", &[1; 3_073]).to_vec(), Err(Refusal::Unwritable));
    assert!(Draft::put_value(b"k", &[1; 3_072]).to_vec().is_ok());
    assert_eq!(Draft::ping().write(&mut [0; raw::REPLY - 1]), Err(Refusal::SmallBuffer), "whatever the message");
    assert_eq!(Draft::ping().write(&mut [0; raw::REPLY]), Ok(3));
}

#[test]
fn what_is_no_message_is_refused() {
    assert_eq!(Message::read(&[3]).err(), Some(Refusal::Malformed));
    assert_eq!(Message::read(&[8, 6]).err(), Some(Refusal::UnknownType));
    assert_eq!(Message::read(&vec![0; 16_385]).err(), Some(Refusal::TooLong));
    assert_eq!(Message::read(&[]).map(|message| message.kind()), Ok(Kind::PutValue), "an absent type is 0");
}

#[test]
fn the_senders_own_lengths_are_read() {
    // a peer with an id of 70 bytes, six addresses and the connection 9, which reads as 0: none of it could be written here
    let mut peer = [&[10, 70][..], &[1; 70], &[24, 9]].concat();
    for n in 0..6 {
        peer.extend([18, 1, n]);
    }
    let bytes = [&[8, 4, 66, peer.len() as u8][..], &peer].concat();
    let message = Message::read(&bytes).expect("well formed");
    let entry = message.closer_peers().next().expect("a peer");
    assert_eq!((entry.id().len(), entry.connection()), (70, ConnectionType::NotConnected));
    assert!(entry.addresses().eq((0..6).map(|n| [n])));
}

/// A field of bytes, with its length in two bytes.
fn field(tag: u8, content: &[u8]) -> Vec<u8> {
    [&[tag, (content.len() % 128 + 128) as u8, (content.len() / 128) as u8][..], content].concat()
}

#[test]
fn any_number_of_addresses_is_read() {
    // lengths 0, 1, 2 .. so that no two are alike; the id and the connection stand among them
    let address = |n: usize| vec![n as u8; n];
    let counts = [0, 1, 7, 8, 9, 20];
    let peer = |count: usize| {
        let (early, late): (Vec<_>, Vec<_>) = (0..count).partition(|n| *n < 8);
        let written = |part: Vec<usize>| part.into_iter().flat_map(|n| field(18, &address(n))).collect::<Vec<_>>();
        [field(10, b"first"), written(early), field(10, &[count as u8]), vec![24, 2], written(late)].concat()
    };
    for (tag, list) in [(66, 0), (74, 1)] {
        let bytes = [vec![8, 4], counts.iter().flat_map(|count| field(tag, &peer(*count))).collect()].concat();
        let message = Message::read(&bytes).expect("well formed");
        let entries: Vec<_> = [message.closer_peers(), message.provider_peers()][list].clone().collect();
        assert_eq!(entries.len(), counts.len());
        for (entry, count) in entries.into_iter().zip(counts) {
            assert_eq!((entry.id(), entry.connection()), (&[count as u8][..], ConnectionType::CanConnect));
            assert!(entry.addresses().eq((0..count).map(address)), "{count} addresses");
            let mut walk = entry.clone().addresses();
            assert_eq!((walk.by_ref().count(), walk.next()), (count, None), "and no more after the last");
        }
    }
}

#[test]
fn a_record_in_several_fields_is_read_as_one() {
    let first = [26, 3, 10, 1, b'A'];
    let cases: [[&[u8]; 3]; 6] = [
        [&[26, 3, 18, 1, b'B'], b"A", b"B"],
        [&[26, 0], b"A", b""],
        [&[26, 2, 10, 0], b"", b""],
        [&[26, 3, 18, 1, b'B', 26, 3, 10, 1, b'C'], b"C", b"B"],
        [&[24, 7, 18, 1, b'x', 26, 6, 42, 1, b'z', 18, 1, b'B'], b"A", b"B"],
        [&[26, 6, 18, 1, b'B', 18, 1, b'C'], b"A", b"C"],
    ];
    for [more, key, value] in cases {
        let bytes = [&first, more].concat();
        assert_eq!(Message::read(&bytes).map(|message| message.record()), Ok(Some(Record { key, value })), "{more:?}");
    }
    assert_eq!(Message::read(&[26, 0]).map(|message| message.record()), Ok(Some(Record { key: b"", value: b"" })));
    assert_eq!(Message::read(&[24, 7]).map(|message| message.record()), Ok(None), "no record: another wire type");
    assert_eq!(Message::read(&[26, 1, 10, 26, 2, 1, b'A']).err(), Some(Refusal::Malformed), "well formed only if joined");
}
