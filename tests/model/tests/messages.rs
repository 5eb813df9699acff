//! Messages, recipes and lists: what is written reads back, other ways to write mean the same, and no bytes do harm.

use starterbell_model::gen::{self, Rng};
use starterbell_model::message::{closer_peers, decode, encode, next_address, next_peer, provider_peers, read, Message, Peer};
use starterbell_model::peer::{address_list, addresses_of};
use starterbell_model::recipe::{self, outranks, Setpoint};
use starterbell_model::wire::{fields, minimal, read_varint, Span};
use starterbell_model::writer::{body_of, framed, peer_list, peers_of, write};
use starterbell_model::{limits, Refusal};
use std::collections::BTreeMap;

#[test]
fn what_is_written_reads_back() {
    let mut rng = Rng::new(11);
    let mut out = vec![0xdd; limits::REPLY + 5];
    for _ in 0..3_000 {
        let m = gen::message(&mut rng);
        let body = body_of(&m).expect("within the limits");
        assert_eq!(decode(&body), Ok(m.clone()));
        out.fill(0xdd);
        let n = write(&mut out, &m).expect("written");
        assert_eq!(out[..n], framed(&body));
        assert!(out[n..].iter().all(|b| *b == 0xdd));
        assert_eq!((peers_of(&peer_list(&m.closer)), addresses_of(&address_list(&[vec![], vec![5; 300]]))), (m.closer, vec![vec![], vec![5; 300]]));
    }
}

#[test]
fn other_ways_to_write_mean_the_same() {
    let mut rng = Rng::new(12);
    let mut padded = 0;
    for _ in 0..6_000 {
        let m = gen::message(&mut rng);
        let body = gen::loose_body(&mut rng, &m);
        if body.len() <= limits::BODY {
            assert_eq!(decode(&body), Ok(m.clone()), "{body:02x?}");
            padded += usize::from(body != encode(&m));
        }
    }
    assert!(padded > 3_000);
}

/// Walks from 0, on from the end of what was found, meet the lists.
fn walks_meet_the_lists(body: &[u8]) {
    for (providers, list) in [(false, closer_peers(body)), (true, provider_peers(body))] {
        let mut from = 0;
        for peer in list {
            assert_eq!(next_peer(body, providers, from), Some(peer.clone()));
            from = peer.entry.end();
            let mut at = peer.entry.at;
            for address in peer.addresses {
                assert_eq!(next_address(body, peer.entry.at, peer.entry.end(), at), Some(address));
                at = address.end();
            }
            assert_eq!(next_address(body, peer.entry.at, peer.entry.end(), at), None);
        }
        assert_eq!(next_peer(body, providers, from), None);
    }
}

/// The view's parts are the message's fields.
fn view_holds(body: &[u8], m: &Message) {
    let view = read(body).expect("it reads");
    assert_eq!((view.kind, view.key.of(body)), (m.kind, &m.key[..]));
    let record = view.record.map(|r| (r.key.of(body).to_vec(), r.value.of(body).to_vec()));
    assert_eq!(record, m.record.clone().map(|r| (r.key, r.value)));
    for (views, peers) in [(closer_peers(body), &m.closer), (provider_peers(body), &m.providers)] {
        let same = |v: &starterbell_model::message::PeerView, p: &Peer| {
            v.id.of(body) == p.id && v.connection == p.connection && v.addresses.iter().map(|a| a.of(body).to_vec()).eq(p.addresses.iter().cloned())
        };
        assert!(views.len() == peers.len() && views.iter().zip(peers).all(|(v, p)| same(v, p)));
    }
}

#[test]
fn any_bytes_are_read_or_refused() {
    let mut rng = Rng::new(13);
    let mut seen = [0usize; 4];
    for _ in 0..20_000 {
        let body = gen::body(&mut rng);
        match decode(&body) {
            Ok(m) => {
                view_holds(&body, &m);
                walks_meet_the_lists(&body);
                assert_eq!(decode(&encode(&m)), Ok(m), "its own writing means the same");
                seen[0] += 1;
            }
            Err(Refusal::Malformed) => seen[1] += 1,
            Err(Refusal::UnknownType) => seen[2] += 1,
            Err(Refusal::TooLong) => seen[3] += 1,
            Err(other) => panic!("{other:?}"),
        }
        assert_eq!(read(&body).err(), decode(&body).err());
    }
    assert!(seen[0] > 5_000 && seen[1] > 3_000 && seen[2] > 50 && seen[3] > 50, "{seen:?}");
}

/// Request iv: a record's key and value, by position, from all its occurrences.
#[test]
fn split_records() {
    let at = |at, len| Span { at, len };
    let absent = Span::default();
    let record = |body: &[u8]| read(body).map(|view| view.record.map(|r| (r.key, r.value)));
    let first = [0x1a, 3, 0x0a, 1, b'A'];
    let cases: [(&[u8], (Span, Span)); 9] = [
        (&[0x1a, 3, 0x12, 1, b'B'], (at(4, 1), at(9, 1))),
        (&[0x1a, 0], (at(4, 1), absent)),
        (&[0x1a, 2, 0x0a, 0], (at(9, 0), absent)),
        (&[0x1a, 2, 0x12, 0], (at(4, 1), at(9, 0))),
        (&[0x1a, 6, 0x12, 1, b'B', 0x0a, 1, b'C'], (at(12, 1), at(9, 1))),
        (&[0x1a, 0, 0x1a, 3, 0x12, 1, b'B'], (at(4, 1), at(11, 1))),
        (&[0x1a, 3, 0x12, 1, b'B', 0x1a, 3, 0x0a, 1, b'C'], (at(14, 1), at(9, 1))),
        (&[0x18, 7, 0x12, 1, b'x', 0x1a, 6, 0x2a, 1, b'z', 0x12, 1, b'B'], (at(4, 1), at(17, 1))),
        (&[0x18, 7], (at(4, 1), absent)),
    ];
    for (more, spans) in cases {
        assert_eq!(record(&[&first, more].concat()), Ok(Some(spans)), "{more:02x?}");
    }
    assert_eq!(record(&[0x1a, 0]), Ok(Some((absent, absent))));
    assert_eq!(record(&[0x18, 7]), Ok(None), "field 3 with another wire type is no occurrence");
    assert_eq!(record(&[0x1a, 1, 0x0a, 0x1a, 2, 1, b'A']), Err(Refusal::Malformed), "well formed only if joined");
}

#[test]
fn bad_fields_are_refused_wherever_they_stand() {
    let mut rng = Rng::new(14);
    for _ in 0..2_000 {
        let m = Message { record: None, closer: vec![], providers: vec![], ..gen::message(&mut rng) };
        let bad = gen::bad_field(&mut rng);
        let outside = [gen::loose_body(&mut rng, &m), bad.clone()].concat();
        assert_eq!(read(&outside), Err(Refusal::Malformed), "{bad:02x?}");
        for field in [0x1a, 0x42, 0x4a] {
            let inside = [vec![field, bad.len() as u8], bad.clone(), encode(&m)].concat();
            assert_eq!(read(&inside), Err(Refusal::Malformed), "{bad:02x?} in {field:02x}");
        }
    }
}

#[test]
fn varints() {
    let mut rng = Rng::new(15);
    for _ in 0..20_000 {
        let value = rng.number() >> rng.below(64);
        let bytes = gen::padded_varint(&mut rng, value, 10);
        assert_eq!(read_varint(&bytes, 0, bytes.len()), Some((value, bytes.len())));
        assert_eq!(read_varint(&bytes, 0, bytes.len() - 1), None);
        assert!(minimal(value).len() <= bytes.len());
    }
    assert_eq!(minimal(u64::MAX).len(), 10);
    assert_eq!(fields(&[], Span::default()), Some(vec![]));
}

#[test]
fn recipes_read_back() {
    let mut rng = Rng::new(16);
    for _ in 0..3_000 {
        let r = gen::recipe(&mut rng);
        let value = recipe::write(&r);
        assert_eq!(recipe::read(&value), Ok(r));
    }
    let mut taken = 0;
    for _ in 0..10_000 {
        let value = gen::damaged_recipe(&mut rng);
        if let Ok(r) = recipe::read(&value) {
            assert_eq!(recipe::write(&r), value, "a recipe has one writing");
            assert!(value.len() <= 3_072);
            for list in r.lists() {
                assert!(list.len() <= 400 && list.iter().all(|s| s.turn <= 1_000_000 && s.trim.abs() <= 20_000));
                assert!(list.windows(2).all(|w| w[0].turn < w[1].turn && (w[0].trim - w[1].trim).abs() <= 5_000));
            }
            taken += 1;
        }
    }
    assert!(taken > 300 && taken < 6_000, "{taken}");
}

/// Both sides of request ix's line come up, wherever a leap can be.
#[test]
fn made_up_recipes_and_leapers() {
    let mut rng = Rng::new(18);
    let mut met: BTreeMap<&str, usize> = BTreeMap::new();
    for _ in 0..4_000 {
        let (good, leaper) = (gen::recipe(&mut rng), gen::leaper(&mut rng));
        assert!(recipe::is_leaper(&recipe::write(&leaper)) && !recipe::is_leaper(&recipe::write(&good)));
        let leap_of = |list: &[Setpoint]| recipe::differences(list).iter().position(|by| by.abs() > 5_000);
        let [core, wrap] = leaper.lists().map(leap_of);
        assert!(core.is_none() || wrap.is_none(), "in one list");
        let leaps = if core.is_some() { &leaper.core } else { &leaper.wrap };
        let (trims, by) = (leaps.iter().map(|s| s.trim).collect::<Vec<i64>>(), recipe::differences(leaps));
        let at = core.or(wrap).expect("a leap");
        assert!(by[at + 1..].iter().all(|by| by.abs() <= 5_000), "one leap");
        let good = if core.is_some() { &good.core } else { &good.wrap };
        let cases = [
            ("in the core", core.is_some()),
            ("in a wrap with a core before it", wrap.is_some() && !leaper.core.is_empty()),
            ("in the wrap of format 1", leaper.format == 1),
            ("5,000 up", recipe::differences(good).contains(&5_000)),
            ("5,000 down", recipe::differences(good).contains(&-5_000)),
            ("far from the first", good.iter().any(|s| (s.trim - good[0].trim).abs() > 5_000)),
            ("20,000 after others", good.iter().skip(1).any(|s| s.trim == 20_000)),
            ("-20,000 after others", good.iter().skip(1).any(|s| s.trim == -20_000)),
            ("5,001 up", by[at] == 5_001),
            ("5,001 down", by[at] == -5_001),
            ("further up", by[at] > 5_001),
            ("further down", by[at] < -5_001),
            ("from end to end", by[at].abs() == 40_000),
            ("the first two of more", at == 0 && trims.len() > 2),
            ("the last two of more", at > 0 && at + 2 == trims.len()),
            ("in the middle", at > 0 && at + 2 < trims.len()),
            ("near the first", at > 0 && (trims[at + 1] - trims[0]).abs() <= 5_000),
        ];
        cases.iter().for_each(|(case, is)| *met.entry(case).or_default() += usize::from(*is));
    }
    assert!(met.values().all(|n| *n >= 40), "{met:?}");
}

/// Both sides of request iii's limits come up, those of before too.
#[test]
fn made_up_values_of_all_sizes() {
    let mut rng = Rng::new(19);
    let mut met: BTreeMap<&str, usize> = BTreeMap::new();
    for _ in 0..4_000 {
        let (good, leaper, damaged) = (gen::recipe(&mut rng), gen::leaper(&mut rng), gen::damaged_recipe(&mut rng));
        let (count, length) = (good.wrap.len(), recipe::write(&good).len());
        let large = recipe::read_of_any_size(&damaged).filter(|_| recipe::read(&damaged).is_err()).map_or(0, |r| r.wrap.len());
        let (read, written) = (decode(&gen::body(&mut rng)), gen::message_to_write(&mut rng));
        let value_of = |m: &Message| m.record.as_ref().map_or(0, |r| r.value.len());
        let cases = [
            ("200 setpoints", count == 200),
            ("201 setpoints", count == 201),
            ("399 setpoints", count == 399),
            ("400 setpoints", count == 400),
            ("400 in 2,048 bytes or fewer", count == 400 && length <= 2_048),
            ("400 in more", count == 400 && length > 2_048),
            ("some number between", (202..399).contains(&count)),
            ("2,048 bytes", length == 2_048),
            ("2,049 bytes", length == 2_049),
            ("3,071 bytes", length == 3_071),
            ("3,072 bytes", length == 3_072),
            ("some length between", (2_050..3_071).contains(&length)),
            ("a leaper with 400", leaper.wrap.len() == 400),
            ("401 setpoints", large == 401 && damaged.len() <= 2_048),
            ("401 in more", large == 401 && damaged.len() > 2_048),
            ("3,073 bytes", damaged.len() == 3_073 && recipe::read_of_any_size(&damaged).is_some()),
            ("3,072 read", read.as_ref().is_ok_and(|m| value_of(m) == 3_072)),
            ("3,073 read", read.is_ok_and(|m| value_of(&m) == 3_073)),
            ("3,072 to write", value_of(&written) == 3_072),
            ("3,073 to write", value_of(&written) == 3_073),
        ];
        cases.iter().for_each(|(case, is)| *met.entry(case).or_default() += usize::from(*is));
    }
    assert!(met.values().all(|n| *n >= 20), "{met:?}");
}

#[test]
fn the_rank_is_a_strict_total_order() {
    let mut rng = Rng::new(17);
    let values: Vec<Vec<u8>> = (0..60).map(|i| if i % 2 == 0 { gen::recipe_value(&mut rng) } else { vec![i as u8 % 8; 16 + i] }).collect();
    for a in &values {
        for b in &values {
            assert_eq!(usize::from(outranks(a, b)) + usize::from(outranks(b, a)) + usize::from(a == b), 1);
            for c in &values {
                assert!(!(outranks(a, b) && outranks(b, c)) || outranks(a, c));
            }
        }
    }
    assert!(outranks(&[1; 17], &[1; 16]), "a prefix is lower");
}
