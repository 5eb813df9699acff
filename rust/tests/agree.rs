//! Two benches agree: boxes that are offered the same records hold the same ones, byte for byte, whatever the order of the offers, however often each comes,
//! and whether it is typed or sent. What they hold follows from the set of offers alone, and is worked out here in plain Rust.

use starterbell::message::Draft;
use starterbell::Refusal::{BreaksRules, BrokenRecipe, EndedInside, Malformed, NoRecordSlot, Outranked, PrefixNotMinimal, TooLong, UnknownType};
use starterbell::{Node, Peer, Refusal, Room};
use std::collections::{BTreeMap, BTreeSet};

const WORLDS: u64 = 300;
const BOXES: usize = 8;

/// Numbers that look random, the same in every run: splitmix64.
struct Rng(u64);

impl Rng {
    fn below(&mut self, n: usize) -> usize {
        self.0 = self.0.wrapping_add(0x9e37_79b9_7f4a_7c15);
        let z = (self.0 ^ (self.0 >> 30)).wrapping_mul(0xbf58_476d_1ce4_e5b9);
        let z = (z ^ (z >> 27)).wrapping_mul(0x94d0_49bb_1331_11eb);
        ((z ^ (z >> 31)) % n as u64) as usize
    }

    fn pick<T: Clone>(&mut self, list: &[T]) -> T {
        list[self.below(list.len())].clone()
    }
}

// ---- what is offered

fn varint(number: usize) -> Vec<u8> {
    if number < 0x80 {
        return vec![number as u8];
    }
    [vec![number as u8 | 0x80], varint(number >> 7)].concat()
}

/// A note, setpoints at the turns 0, 1, 2 and so on, and a trailer.
fn value(note: &[u8], trims: &[i32], sequence: u64) -> Vec<u8> {
    let zigzag = |trim: i32| varint((trim << 1 ^ trim >> 31) as usize);
    let setpoints: Vec<u8> = trims.iter().zip(0..).flat_map(|(&trim, turn)| [varint(turn), zigzag(trim)].concat()).collect();
    let back = (setpoints.len() + 16) as u32;
    [note, &setpoints, &back.to_le_bytes(), &(trims.len() as u16).to_le_bytes(), &[1, 0], &sequence.to_le_bytes()].concat()
}

/// A value that is a recipe. Those of one sequence differ early or late, in the note or in the setpoints, or one is a prefix of another.
fn good(sequence: u64, rng: &mut Rng) -> Vec<u8> {
    let (first, last) = ([rng.pick(&[0, 127, 128, 255])], [rng.pick(&[0, 127, 128, 255])]);
    let trims = [0, 5_000, rng.pick(&[4_999, 5_000, 0]), rng.pick(&[0, 1, 2_500])];
    match rng.below(5) {
        0 => value(&[&[255; 2][..rng.below(3)], &value(&[], &[], sequence).repeat(rng.below(3))].concat(), &[], sequence),
        1 => value(&[&first[..], b"silver", &last].concat(), &[0, 2_000], sequence),
        2 => value(&[&first[..], &[7; 3_054], &last].concat(), &[], sequence), // 3,072 bytes: no value is larger
        3 => value(&first, &trims[..2].repeat(rng.pick(&[101, 200])), sequence), // 202 setpoints or 400: no recipe has more
        _ => value(b"silver", &trims[..rng.below(5)], sequence),
    }
}

/// A value that is no recipe, and that would often rank highest: it leaps, is out of bounds, of another format, or cut short.
fn broken(rng: &mut Rng) -> Vec<u8> {
    let sequence = rng.pick(&[0, 256, u64::MAX, u64::MAX]);
    let whole = value(&[], &[0, -5_000], sequence);
    let format = whole.len() - 10;
    match rng.below(9) {
        0 => value(b"silver", &[0, 5_001], sequence),
        1 => value(b"silver", &[0, 5_000, -1], sequence),
        2 => value(&[], &[20_001], sequence),
        3 => value(&[7; 3_057], &[], sequence),
        7 => value(&[], &[0; 401], sequence),
        4 => [&whole[..format], &[2], &whole[format + 1..]].concat(),
        5 => whole[1..].to_vec(),
        6 => whole[..whole.len() - 1].to_vec(),
        _ => vec![255; rng.below(16)],
    }
}

/// A value under a key, and what is wrong with it. The generator knows, since it made it so.
struct Offer {
    key: Vec<u8>,
    value: Vec<u8>,
    flaw: Option<Refusal>,
}

/// A set of offers, with few keys and few sequences, so that values compete; and for each box an order of its own, in which all come and some come again.
fn world(seed: u64) -> (Vec<Offer>, [Vec<usize>; BOXES], Rng) {
    let mut rng = Rng(seed);
    let long = |more: usize| [&b"/wind/"[..], &vec![255; more]].concat();
    let keys = &[b"/wind/g".to_vec(), b"/wind/gg".to_vec(), b"/wind/\0".to_vec(), b"/wind//wind/".to_vec(), long(122)][rng.below(5)..];
    let no_keys = [vec![], b"/wind/".to_vec(), b"/wine/g".to_vec(), b"/WIND/g".to_vec(), b"wind/g".to_vec(), long(123)];
    let sequences: [u64; 2] = std::array::from_fn(|_| rng.pick(&[0, 1, 255, 256, u64::MAX - 1, u64::MAX]));
    let mut offer = |n: usize| match (n % 8, rng.pick(&sequences)) {
        (0, sequence) => Offer { key: rng.pick(&no_keys), value: good(sequence, &mut rng), flaw: Some(BreaksRules) },
        (1 | 2, _) => Offer { key: rng.pick(keys), value: broken(&mut rng), flaw: Some(BrokenRecipe) },
        (_, sequence) => Offer { key: rng.pick(keys), value: good(sequence, &mut rng), flaw: None },
    };
    let offers: Vec<Offer> = (0..24).map(&mut offer).collect();
    let orders = std::array::from_fn(|_| {
        let again = rng.below(offers.len());
        let mut order: Vec<usize> = (0..offers.len()).chain((0..again).map(|_| rng.below(offers.len()))).collect();
        order.sort_by_cached_key(|_| rng.below(1 << 30));
        order
    });
    (offers, orders, rng)
}

/// Keys and values, sorted.
type Held = Vec<(Vec<u8>, Vec<u8>)>;

/// The sequence, then the bytes.
fn rank(value: &[u8]) -> (u64, &[u8]) {
    (value.last_chunk().map_or(0, |last| u64::from_le_bytes(*last)), value)
}

/// What boxes are to hold: under each key the highest-ranking value that has no flaw.
fn highest(offers: &[Offer]) -> Held {
    let mut good: Vec<&Offer> = offers.iter().filter(|offer| offer.flaw.is_none()).collect();
    good.sort_by_key(|offer| rank(&offer.value));
    let last: BTreeMap<_, _> = good.iter().map(|offer| (offer.key.clone(), offer.value.clone())).collect();
    last.into_iter().collect()
}

// ---- boxes

fn bench(n: usize, records: usize) -> Node {
    Node::start(&vec![b'a' + n as u8; 1 + 9 * n], &[], Room { contacts: 3 * n, records }).expect("a good id")
}

fn held(node: &Node) -> Held {
    let mut held: Held = node.records().map(|record| (record.key.to_vec(), record.value.to_vec())).collect();
    held.sort();
    held
}

/// A PUT_VALUE, by hand where the writer refuses it; or a request that has nothing to do with the offers.
fn request(offer: Option<&Offer>, rng: &mut Rng) -> Vec<u8> {
    let other = rng.pick(&[Draft::ping(), Draft::find_node(b"p"), Draft::get_value(b"/wind/g")]);
    let Some(Offer { key, value, .. }) = offer else { return other.to_vec().expect("short") };
    Draft::put_value(key, value).to_vec().unwrap_or_else(|_| put_value(key, key, value))
}

/// A PUT_VALUE by hand, whose record may have another key.
fn put_value(key: &[u8], record_key: &[u8], value: &[u8]) -> Vec<u8> {
    let measured = |bytes: &[u8]| [&varint(bytes.len()), bytes].concat();
    let record = [&[10], &measured(record_key)[..], &[18], &measured(value)].concat();
    measured(&[&[18], &measured(key)[..], &[26], &measured(&record)].concat())
}

/// Sends requests behind one another, in pieces of any size. One that is refused shuts its connection, and those behind it go on a new one.
fn send(node: &mut Node, requests: &[Vec<u8>], rng: &mut Rng) -> Vec<Result<(), Refusal>> {
    let mut told = Vec::new();
    while told.len() < requests.len() {
        let id = [b'p', rng.below(40) as u8];
        let mut connection = node.accept(rng.pick(&[Peer::server(&id, &[]), Peer::client(&id, &[])])).expect("a good id");
        let bytes = requests[told.len()..].concat();
        let mut rest = &bytes[..];
        while !rest.is_empty() && !connection.is_shut() {
            let most = 1 << rng.below(13);
            let (piece, after) = rest.split_at(rest.len().min(1 + rng.below(most)));
            rest = after;
            let fed = node.feed(&mut connection, piece, |_, _| told.push(Ok(())));
            assert_eq!(fed.is_err(), connection.is_shut());
            told.extend(fed.err().map(Err));
        }
        assert!(connection.is_shut() || node.end(&mut connection).is_ok(), "a request wasn't taken to its end");
    }
    told
}

/// A record that would rank highest, and that is no offer or doesn't reach the store: under another key than its message's, behind a message that is refused with
/// 3 to 6, or cut off by the connection's end. It has to leave no trace.
fn lose(node: &mut Node, key: &[u8], rng: &mut Rng) {
    let best = value(b"lost", &[], u64::MAX);
    let put = Draft::put_value(key, &best).to_vec().expect("a record key");
    let (bytes, refusal) = match rng.below(6) {
        0 => (put_value(b"/wind/other", key, &best), BreaksRules),
        1 => ([&[3, 10, 0, 0][..], &put].concat(), Malformed),
        2 => ([&[0x80, 0][..], &put].concat(), PrefixNotMinimal),
        3 => ([&[2, 8, 6][..], &put].concat(), UnknownType),
        4 => ([&[0x81, 0x80, 1][..], &put].concat(), TooLong),
        _ => (put[..put.len() - 1].to_vec(), EndedInside),
    };
    let mut connection = node.accept(Peer::client(b"p", &[])).expect("a good id");
    let fed = node.feed(&mut connection, &bytes, |_, _| panic!("a request that is refused gets no reply"));
    let told = fed.and_then(|()| node.end(&mut connection));
    assert_eq!(told, Err(refusal));
}

/// Offers a box what its order says, some typed and some sent, with other things in between. Counts the refusals.
fn offer_all(node: &mut Node, offers: &[Offer], order: &[usize], rng: &mut Rng, refused: &mut BTreeMap<Refusal, usize>) {
    let keys: Vec<Vec<u8>> = offers.iter().filter(|offer| offer.flaw != Some(BreaksRules)).map(|offer| offer.key.clone()).collect();
    let mut rest = order;
    while !rest.is_empty() {
        let (some, after) = rest.split_at(1 + rng.below(rest.len().min(6)));
        rest = after;
        let some: Vec<Option<&Offer>> = some.iter().flat_map(|&n| [None, Some(&offers[n])].into_iter().skip(rng.below(2))).collect();
        let told = if rng.below(2) == 0 {
            let _ = node.seen(Peer::server(&[b'p', rng.below(40) as u8], &[]));
            lose(node, &rng.pick(&keys), rng);
            some.iter().map(|offer| offer.map_or(Ok(()), |offer| node.put(&offer.key, &offer.value))).collect()
        } else {
            let requests: Vec<_> = some.iter().map(|offer| request(*offer, rng)).collect();
            send(node, &requests, rng)
        };
        for (offer, told) in some.iter().zip(told) {
            match offer.and_then(|offer| offer.flaw) {
                Some(flaw) => assert_eq!(told, Err(flaw)),
                None => assert!(matches!(told, Ok(()) | Err(Outranked | NoRecordSlot)), "{told:?}"),
            }
            told.err().into_iter().for_each(|refusal| *refused.entry(refusal).or_default() += 1);
        }
    }
}

#[test]
fn boxes_that_are_offered_the_same_hold_the_same() {
    let mut refused = BTreeMap::new();
    for seed in 0..WORLDS {
        let (offers, orders, mut rng) = world(seed);
        let right = highest(&offers);
        // the first one has just enough slots
        let mut boxes: Vec<Node> = (0..BOXES).map(|n| bench(n, right.len() + n * n)).collect();
        boxes.iter_mut().zip(&orders).for_each(|(node, order)| offer_all(node, &offers, order, &mut rng, &mut refused));
        assert_eq!(boxes.iter().map(held).collect::<BTreeSet<_>>(), BTreeSet::from([right.clone()]), "world {seed}");
        let right = BTreeMap::from_iter(right);
        for Offer { key, .. } in &offers {
            assert!(boxes.iter().all(|node| node.find(key) == Ok(right.get(key).map(Vec::as_slice))), "{key:?} in world {seed}");
        }
    }
    assert!(refused.keys().eq(&[BreaksRules, BrokenRecipe, Outranked]), "each of 8, 9 and 10 on the way, and never 11: {refused:?}");
}

#[test]
fn slots_matter_only_where_there_are_too_few() {
    for seed in 0..WORLDS {
        let (offers, orders, rng) = world(seed);
        let keys = highest(&offers).len();
        let [few, enough, more, most] = [keys - 1, keys, keys + 1, 256].map(|slots| {
            let (mut node, mut refused) = (bench(0, slots), BTreeMap::new());
            offer_all(&mut node, &offers, &orders[0], &mut Rng(rng.0), &mut refused);
            (refused.contains_key(&NoRecordSlot), held(&node))
        });
        assert!(few.0 && few.1 != enough.1, "it gives 11 and differs in world {seed}");
        assert!(!enough.0 && enough == more && enough == most, "world {seed}");
    }
}

// ---- that the worlds above can tell: wrong stores in plain Rust, offered the same

/// What a store holds under a key: from what it held, and a value that came, which is a recipe or isn't.
type Rule = for<'a> fn(Option<&'a [u8]>, &'a [u8], bool) -> Option<&'a [u8]>;

const RIGHT: Rule = |held, value, good| held.filter(|held| !good || rank(held) > rank(value)).or(good.then_some(value));

/// With these, what is held depends on the order.
const WRONG: [(&str, Rule); 6] = [
    ("takes the newest", |held, value, good| RIGHT(held.filter(|_| !good), value, good)),
    ("takes the newest of one sequence", |held, value, good| RIGHT(held.filter(|held| !good || rank(held).0 != rank(value).0), value, good)),
    ("keeps the first of one sequence", |held, value, good| RIGHT(held, value, good && held.is_none_or(|held| rank(held).0 < rank(value).0))),
    ("never looks past a prefix", |held, value, good| RIGHT(held, value, good && !held.is_some_and(|held| value.starts_with(held)))),
    ("forgets what it holds when it gives 10", |held, value, good| RIGHT(held, value, good).filter(|after| !good || *after == value)),
    ("overlooks 9 where the sequence is highest", |held, value, good| RIGHT(held, value, good || held.is_some_and(|held| rank(held).0 < rank(value).0))),
];

fn plain(offers: &[Offer], order: &[usize], rule: Rule) -> Held {
    let mut held: BTreeMap<&[u8], &[u8]> = BTreeMap::new();
    for Offer { key, value, flaw } in order.iter().map(|&n| &offers[n]).filter(|offer| offer.flaw != Some(BreaksRules)) {
        let after = rule(held.remove(&key[..]), value, flaw.is_none());
        held.extend(after.map(|value| (&key[..], value)));
    }
    held.into_iter().map(|(key, value)| (key.to_vec(), value.to_vec())).collect()
}

/// In how many worlds boxes with such a store differ, and in how many they agree, but on something else.
fn found_out(rule: Rule) -> (usize, usize) {
    let mut found = (0, 0);
    for (offers, orders, _) in (0..WORLDS).map(world) {
        let held: BTreeSet<Held> = orders.iter().map(|order| plain(&offers, order, rule)).collect();
        found.0 += usize::from(held.len() > 1);
        found.1 += usize::from(held.len() == 1 && !held.contains(&highest(&offers)));
    }
    found
}

#[test]
fn these_worlds_find_wrong_stores_out() {
    assert_eq!(found_out(RIGHT), (0, 0));
    for (what, rule) in WRONG {
        assert!(found_out(rule).0 > 0, "a store that {what} isn't found out");
    }
    let never_9: Rule = |held, value, _| RIGHT(held, value, true);
    assert!(matches!(found_out(never_9), (0, 1..)), "boxes would agree on what is no recipe");
}
