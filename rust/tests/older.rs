//! Memory of version 0.1, whose record slots had 2,184 bytes and whose values had up to 2,048: what is carried over from it, and what is refused and told. It is laid out
//! here by hand, to the byte as that version wrote it.

use starterbell::message::{Draft, Message, Record};
use starterbell::recipe::{Recipe, Setpoint};
use starterbell::{older, raw, Event, Node, Peer, Refusal, Room};

const SLOT: usize = 2_184;

/// A slot of version 0.1.
fn slot(key: &[u8], value: &[u8]) -> Vec<u8> {
    let mut slot = vec![0; SLOT];
    slot[0] = key.len() as u8;
    slot[2..4].copy_from_slice(&(value.len() as u16).to_le_bytes());
    slot[8..][..key.len()].copy_from_slice(key);
    slot[136..][..value.len()].copy_from_slice(value);
    slot
}

/// A value of so many bytes.
fn value(length: usize, sequence: u64) -> Vec<u8> {
    let recipe = Recipe { note: vec![b'0' + (sequence % 10) as u8; length - 16], sequence, ..Recipe::default() };
    recipe.to_value().expect("a recipe")
}

/// Trims 0 and 9,000: version 0.1 took it until leaps were ruled out.
const LEAPER: [u8; 22] = [0, 0, 1, 0xd0, 0x8c, 1, 22, 0, 0, 0, 2, 0, 1, 0, 8, 0, 0, 0, 0, 0, 0, 0];

/// A full store: every key is another, every second one of 128 bytes, and every value has 2,048.
fn full() -> Vec<(Vec<u8>, Vec<u8>)> {
    let key = |n: u64| format!("/wind/{n:0width$}", width = if n % 2 == 0 { 122 } else { 3 }).into_bytes();
    (0..256).map(|n| (key(n), value(2_048, n))).collect()
}

fn laid_out(records: &[(Vec<u8>, Vec<u8>)]) -> Vec<u8> {
    records.iter().flat_map(|(key, value)| slot(key, value)).collect()
}

fn bench(records: usize) -> Node {
    Node::start(b"bench", &[], Room { contacts: 0, records }).expect("a good id")
}

/// The record that a GET_VALUE is answered with.
fn served(node: &mut Node, key: &[u8]) -> Option<(Vec<u8>, Vec<u8>)> {
    let mut connection = node.accept(Peer::client(b"asker", &[])).expect("a good id");
    let request = Draft::get_value(key).to_vec().expect("short");
    let Event::Reply(reply) = node.receive(&mut connection, &request).event else { panic!("no reply") };
    let prefix = reply.iter().take_while(|byte| **byte >= 0x80).count() + 1;
    let message = Message::read(&reply[prefix..]).expect("well formed");
    message.record().map(|record| (record.key.to_vec(), record.value.to_vec()))
}

/// Every record is found and served, byte for byte, and no other is held.
fn holds(node: &mut Node, records: &[(Vec<u8>, Vec<u8>)]) {
    assert_eq!(node.records().count(), records.len());
    for (key, value) in records {
        assert_eq!(node.find(key), Ok(Some(&value[..])));
        assert_eq!(served(node, key), Some((key.clone(), value.clone())));
    }
}

#[test]
fn a_full_store_is_carried_over() {
    let records = full();
    let older = laid_out(&records);
    let mut node = bench(256);
    let carried = node.carry_over(&older).expect("in form");
    assert_eq!((carried.taken, carried.refused), (256, vec![]));
    holds(&mut node, &records);
    let again = node.carry_over(&older).expect("in form");
    assert_eq!((again.taken, again.refused.len()), (256, 0), "identical bytes are taken again");
    holds(&mut node, &records);
    assert_eq!(node.put(b"/wind/000", &value(3_072, 0)), Err(Refusal::NoRecordSlot), "no slot is left");
    assert_eq!(node.put(b"/wind/001", &value(3_072, 1_000)), Ok(()), "where 2,048 bytes stood");
    assert_eq!(served(&mut node, b"/wind/001"), Some((b"/wind/001".to_vec(), value(3_072, 1_000))));
}

#[test]
fn a_host_with_memory_of_its_own_puts_each_record() {
    let (older, mut store) = (laid_out(&full()), vec![0; 256 * raw::RECORD]);
    for record in older::records(&older).expect("in form") {
        assert_eq!(raw::put(&mut store, record.key, record.value), 64);
    }
    for (key, value) in full() {
        let mut found = [0; 2];
        assert_eq!(raw::find(&store, &key, &mut found), 64);
        assert_eq!(store[found[0] as usize..found[1] as usize], value);
    }
}

#[test]
fn free_slots_and_what_is_past_the_last_one_are_passed_over() {
    let mut older = [slot(b"", b""), slot(b"/wind/a", &value(16, 1)), vec![0; SLOT], slot(b"/wind/b", &value(17, 2))].concat();
    // what stands in a free slot doesn't count
    older[1..SLOT].fill(0xa5);
    older.extend_from_slice(&slot(b"/wind/c", &value(18, 3))[..SLOT - 1]);
    let mut node = bench(2);
    assert_eq!(node.carry_over(&older).map(|carried| carried.taken), Ok(2));
    holds(&mut node, &[(b"/wind/a".to_vec(), value(16, 1)), (b"/wind/b".to_vec(), value(17, 2))]);
    let most = [laid_out(&full()), slot(b"/wind/the 257th", &value(16, 1))].concat();
    assert_eq!(bench(256).carry_over(&most).map(|carried| (carried.taken, carried.refused.len())), Ok((256, 0)));
    assert_eq!(bench(1).carry_over(&[]).map(|carried| carried.taken), Ok(0));
}

// ---- what is refused is told

#[test]
fn a_held_leaper_is_refused_and_told() {
    let older = [slot(b"/wind/a", &value(2_048, 1)), slot(b"/wind/leaps", &LEAPER), slot(b"/wind/b", &value(40, 2))].concat();
    let mut node = bench(3);
    let carried = node.carry_over(&older).expect("in form");
    assert_eq!((carried.taken, &carried.refused[..]), (2, &[(Record { key: b"/wind/leaps", value: &LEAPER }, Refusal::BrokenRecipe)][..]));
    holds(&mut node, &[(b"/wind/a".to_vec(), value(2_048, 1)), (b"/wind/b".to_vec(), value(40, 2))]);
    assert_eq!(node.find(b"/wind/leaps"), Ok(None));
    let said = format!("{carried:?}");
    assert_eq!(said, r#"CarriedOver { taken: 2, refused: [(Record { key: "/wind/leaps", value: 22 bytes }, BrokenRecipe)] }"#);
}

#[test]
fn records_without_a_slot_are_told() {
    let records = full();
    let older = laid_out(&records);
    let mut node = bench(200);
    let carried = node.carry_over(&older).expect("in form");
    assert_eq!((carried.taken, carried.refused.len()), (200, 56));
    for ((record, refusal), (key, value)) in carried.refused.iter().zip(&records[200..]) {
        assert_eq!((record.key, record.value, *refusal), (&key[..], &value[..], Refusal::NoRecordSlot));
    }
    holds(&mut node, &records[..200]);
}

#[test]
fn a_box_that_holds_records_ranks_them() {
    let older = [slot(b"/wind/a", &value(2_048, 5)), slot(b"/wind/b", &value(2_048, 5))].concat();
    let mut node = bench(2);
    node.put(b"/wind/a", &value(3_000, 6)).expect("room");
    node.put(b"/wind/b", &value(3_000, 4)).expect("room");
    let carried = node.carry_over(&older).expect("in form");
    assert_eq!((carried.taken, &carried.refused[..]), (1, &[(Record { key: b"/wind/a", value: &value(2_048, 5) }, Refusal::Outranked)][..]));
    holds(&mut node, &[(b"/wind/a".to_vec(), value(3_000, 6)), (b"/wind/b".to_vec(), value(2_048, 5))]);
}

/// A change to old memory.
type Change = fn(&mut Vec<u8>);

#[test]
fn what_is_out_of_form_is_refused_and_nothing_is_put() {
    const LAST: usize = 2 * SLOT;
    let older = [slot(b"/wind/a", &value(2_048, 1)), slot(b"/wind/b", &value(16, 2)), slot(b"/wind/c", &value(99, 3))].concat();
    let changes: [(&str, Change); 8] = [
        ("a key of 6 bytes", |older| older[LAST] = 6),
        ("a key of 129 bytes", |older| older[LAST] = 129),
        ("a key of 255 bytes", |older| older[LAST] = 255),
        ("a key that doesn't open with /wind/", |older| older[LAST + 8 + 5] = b'\\'),
        ("a value of 15 bytes", |older| older[LAST + 2..][..2].copy_from_slice(&[15, 0])),
        ("a value of 2,049 bytes", |older| older[LAST + 2..][..2].copy_from_slice(&[1, 8])),
        ("a value of 65,535 bytes", |older| older[LAST + 2..][..2].copy_from_slice(&[255, 255])),
        ("a key twice", |older| older.copy_within(..SLOT, LAST)),
    ];
    let mut node = bench(3);
    node.put(b"/wind/a", &value(20, 0)).expect("room");
    let before = node.save();
    for (what, change) in changes {
        let mut broken = older.clone();
        change(&mut broken);
        assert_eq!(node.carry_over(&broken), Err(Refusal::OutOfForm), "{what}");
        assert!(node.save() == before, "{what}");
    }
    assert_eq!(node.carry_over(&older).map(|carried| carried.taken), Ok(3), "as it was");
}

// ---- saves

/// The sum of the save that version 0.1.0 wrote of the box below.
const WRITTEN_BY_0_1: u64 = 0x2b25_a7e6_7524_a56f;

/// A box as it was with version 0.1, but for its records.
fn workshop() -> Node {
    let mut node = Node::start(b"bench-1", &[b"/ip4/10.0.0.1"], Room { contacts: 4, records: 3 }).expect("a good id");
    node.seen(Peer::server(b"bench-2", &[b"/ip4/10.0.0.2", b"/ip6/::2"])).expect("room");
    node.seen(Peer::server(b"bench-3", &[])).expect("room");
    node.doubt(b"bench-3").expect("a contact");
    node
}

/// The records that it had.
fn workshops_records() -> Vec<(Vec<u8>, Vec<u8>)> {
    let short = Recipe { note: b"silver".to_vec(), wrap: vec![Setpoint { turn: 0, trim: -1 }], sequence: 7, ..Recipe::default() };
    let long = Recipe { note: vec![7; 2_032], sequence: 8, ..Recipe::default() };
    let long_key = [&b"/wind/"[..], &[b'k'; 122]].concat();
    vec![(b"/wind/g".to_vec(), short.to_value().expect("a recipe")), (long_key, long.to_value().expect("a recipe"))]
}

/// Its save: what it is, three lengths, the box, its contacts, its records, and a sum (FNV-1a). A box and contacts are laid out as they are now.
fn saved(records: &[u8]) -> Vec<u8> {
    const ME: usize = 16 + 3 * 8;
    let now = workshop().save();
    let mut saved = [&b"starterbell/box1"[..], &now[16..32], &(records.len() as u64).to_le_bytes(), &now[ME..ME + 616 + 4 * 616], records].concat();
    let sum = saved.iter().fold(0xcbf2_9ce4_8422_2325u64, |sum, byte| (sum ^ u64::from(*byte)).wrapping_mul(0x0100_0000_01b3));
    saved.extend_from_slice(&sum.to_le_bytes());
    saved
}

/// The workshop's record memory: two records, and a free slot.
fn workshops_memory() -> Vec<u8> {
    [laid_out(&workshops_records()), vec![0; SLOT]].concat()
}

#[test]
fn these_bytes_are_what_version_0_1_wrote() {
    let saved = saved(&workshops_memory());
    assert_eq!(saved.last_chunk().map(|sum| u64::from_le_bytes(*sum)), Some(WRITTEN_BY_0_1));
}

#[test]
fn a_save_of_version_0_1_is_restored() {
    let older = saved(&workshops_memory());
    assert_eq!(Node::restore(&older).err(), Some(Refusal::OutOfForm), "it is no save of this version");
    assert_eq!(Node::restore(&saved(&[])).err(), Some(Refusal::OutOfForm), "nor is one without room for records, whose parts would fit");
    let (mut node, carried) = Node::restore_older(&older).expect("a whole save");
    assert_eq!((carried.taken, carried.refused.len()), (2, 0));
    holds(&mut node, &workshops_records());
    let mut other = workshop();
    workshops_records().iter().for_each(|(key, value)| other.put(key, value).expect("room"));
    assert!(node.save() == other.save(), "as if its records had been put with this version");
    assert!(Node::restore(&node.save()).is_ok());
    assert_eq!(Node::restore_older(&node.save()).err(), Some(Refusal::OutOfForm), "it is no save of version 0.1");
    assert_eq!(node.put(b"/wind/cello", &value(3_072, 1)), Ok(()), "the third slot");
}

#[test]
fn what_a_save_of_version_0_1_loses_is_told() {
    let older = saved(&[workshops_memory(), slot(b"/wind/leaps", &LEAPER)].concat());
    let (mut node, carried) = Node::restore_older(&older).expect("a whole save");
    assert_eq!((carried.taken, &carried.refused[..]), (2, &[(Record { key: b"/wind/leaps", value: &LEAPER }, Refusal::BrokenRecipe)][..]));
    assert_eq!(node.room(), Room { contacts: 4, records: 4 });
    holds(&mut node, &workshops_records());
}

#[test]
fn what_is_no_whole_save_of_version_0_1_is_refused() {
    let whole = saved(&workshops_memory());
    let refused = |saved: &[u8]| matches!(Node::restore_older(saved), Err(Refusal::OutOfForm));
    for end in (0..whole.len()).step_by(97).chain(whole.len() - 20..whole.len()) {
        assert!(refused(&whole[..end]), "{end} of {} bytes", whole.len());
        let mut changed = whole.clone();
        changed[end] ^= 1;
        assert!(refused(&changed), "byte {end}");
    }
    let slot_of_now = vec![0; raw::RECORD];
    assert!(refused(&saved(&slot_of_now)), "no whole slots of version 0.1");
    assert!(refused(&saved(&[laid_out(&full()), vec![0; SLOT]].concat())), "257 slots");
    assert!(refused(&saved(&[slot(b"/wind/g", &value(16, 1)), slot(b"/wind/g", &value(16, 2))].concat())), "a key twice");
    assert!(!refused(&saved(&[])) && !refused(&saved(&laid_out(&full()))));
}

// ---- lent as it is

#[test]
fn old_memory_is_other_bytes() {
    let find = |memory: &[u8], key: &[u8]| raw::find(memory, key, &mut [0; 2]);
    let records = full();
    let older = laid_out(&records);
    assert!(records.iter().all(|(key, _)| find(&older, key) == 0), "a full store is out of form");
    let short = laid_out(&(0..8).map(|n| (vec![b'/', b'w', b'i', b'n', b'd', b'/', n], value(16, 1))).collect::<Vec<_>>());
    let found: Vec<u32> = (0..8).map(|n| find(&short, &[b'/', b'w', b'i', b'n', b'd', b'/', n])).collect();
    assert_eq!(found, [64, 65, 65, 65, 65, 65, 65, 65], "a store of short values has lost all but the first");
}
