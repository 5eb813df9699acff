//! Tables, stores, framings and lookups, in and out of form.

use super::{id, largest_recipe, leaper_value, odd_id, odd_key, place_in, recipe_value, usable_addresses, wind_key, Rng};
use crate::contacts::{slot_bytes, Contact};
use crate::limits;
use crate::lookup::{Candidate, Lookup, Mark};
use crate::peer::id_fits;
use crate::place::{bucket, distance, place_of, Place};
use crate::records;
use crate::stream::Framing;
use std::collections::{BTreeMap, BTreeSet};

/// A table in form with places of all kinds: some are those of the given ids, others stand under places that no id was hashed to.
/// `clean` has zeros in free slots and after what is shorter; else there is noise.
pub fn table(rng: &mut Rng, ours: &Place, ids: &[Vec<u8>], slots: usize, clean: bool) -> Vec<u8> {
    let mut held: BTreeMap<usize, Vec<Contact>> = BTreeMap::new();
    let mut places = BTreeSet::from([*ours]);
    let wanted = rng.size(0, slots);
    let doubtful_in_ten = *rng.pick(&[0, 0, 1, 3, 6, 10]);
    for _ in 0..wanted {
        let (id, place) = if rng.one_in(2) && !ids.is_empty() {
            let id = rng.pick(ids).clone();
            let place = place_of(&id);
            // now and then a peer is held under another id
            (if rng.one_in(8) { super::id(rng) } else { id }, place)
        } else {
            let number = if rng.one_in(4) { rng.below(256) } else { rng.below(8) };
            (id(rng), place_in(rng, ours, number))
        };
        let of_bucket = held.entry(bucket(&place, ours)).or_default();
        if id_fits(&id) && of_bucket.len() < limits::NEAREST && places.insert(place) {
            let doubtful = rng.below(10) < doubtful_in_ten;
            of_bucket.push(Contact { rank: of_bucket.len(), doubtful, place, id, addresses: usable_addresses(rng) });
        }
    }
    let mut contacts: Vec<Option<Contact>> = held.into_values().flatten().map(Some).collect();
    contacts.resize(slots, None);
    rng.shuffle(&mut contacts);
    contacts.iter().flat_map(|c| contact_slot(rng, c, clean)).collect()
}

/// A table of contacts as large as they can be: ids of 64 bytes and four addresses of 128. Buckets fill from the first, and few are doubtful.
pub fn largest_table(rng: &mut Rng, ours: &Place, slots: usize) -> Vec<u8> {
    let contact = |rng: &mut Rng, i: usize| {
        let addresses = (0..limits::ADDRESSES).map(|_| rng.bytes(limits::ADDRESS)).collect();
        let place = place_in(rng, ours, i / limits::NEAREST);
        Contact { rank: i % limits::NEAREST, doubtful: rng.one_in(20), place, id: rng.bytes(limits::ID), addresses }
    };
    (0..slots).flat_map(|i| slot_bytes(&contact(rng, i))).collect()
}

fn contact_slot(rng: &mut Rng, contact: &Option<Contact>, clean: bool) -> Vec<u8> {
    let mut slot = match contact {
        Some(c) => slot_bytes(c),
        None => vec![0; limits::CONTACT_SLOT],
    };
    if !clean {
        let used = |at: usize| match contact {
            None => at == 0,
            Some(c) => match at {
                0..=3 | 8..=39 => true,
                4..=7 => at - 4 < c.addresses.len(),
                40..=103 => at - 40 < c.id.len(),
                _ => c.addresses.get((at - 104) / 128).is_some_and(|a| (at - 104) % 128 < a.len()),
            },
        };
        for (at, byte) in slot.iter_mut().enumerate() {
            if !used(at) {
                *byte = rng.byte();
            }
        }
    }
    slot
}

/// A byte that may break a table's form: where, and what.
pub fn table_damage(rng: &mut Rng, table: &[u8]) -> (usize, u8) {
    let slots = table.len() / limits::CONTACT_SLOT;
    let base = rng.below(slots) * limits::CONTACT_SLOT;
    match rng.below(7) {
        0 => (base, rng.below(23) as u8),
        1 => (base + 1, *rng.pick(&[0, 1, 1, 2, 255])),
        2 => (base + 2, *rng.pick(&[0, 1, 64, 65, 255])),
        3 => (base + 3, *rng.pick(&[0, 1, 4, 5, 255])),
        4 => (base + rng.between(4, 7), *rng.pick(&[0, 1, 128, 129, 255])),
        5 => (base + 8, rng.byte()),
        _ => (base + rng.below(limits::CONTACT_SLOT), rng.byte()),
    }
}

/// A table that is mostly out of form: a byte is changed, or a slot stands twice, or one has our place.
pub fn spoiled_table(rng: &mut Rng, ours: &Place, ids: &[Vec<u8>], slots: usize) -> Vec<u8> {
    let clean = rng.one_in(2);
    let mut spoiled = table(rng, ours, ids, slots.max(2), clean);
    let count = slots.max(2);
    let (a, b) = (rng.below(count) * limits::CONTACT_SLOT, rng.below(count) * limits::CONTACT_SLOT);
    match rng.below(4) {
        0 => spoiled.copy_within(a..a + limits::CONTACT_SLOT, b),
        1 => spoiled[a + 8..a + 40].copy_from_slice(ours),
        _ => {
            let (at, byte) = table_damage(rng, &spoiled);
            spoiled[at] = byte;
        }
    }
    spoiled
}

/// A store in form. Values needn't be recipes, for the form doesn't ask: some leap, as records from before request ix may.
pub fn store(rng: &mut Rng, keys: &[Vec<u8>], slots: usize, clean: bool) -> Vec<u8> {
    let mut held = BTreeMap::new();
    for _ in 0..rng.size(0, slots) {
        let key = if rng.one_in(2) && !keys.is_empty() { rng.pick(keys).clone() } else { wind_key(rng) };
        let value = match rng.below(4) {
            0 => {
                let n = rng.size(limits::VALUE_LEAST, limits::VALUE);
                rng.bytes(n)
            }
            1 => leaper_value(rng),
            _ => recipe_value(rng),
        };
        if records::is_key(&key) {
            held.insert(key, value);
        }
    }
    let mut slots_used: Vec<Option<(Vec<u8>, Vec<u8>)>> = held.into_iter().map(Some).collect();
    slots_used.resize(slots, None);
    rng.shuffle(&mut slots_used);
    slots_used.iter().flat_map(|r| record_slot(rng, r, clean)).collect()
}

/// A store in form with a record in every slot; the first ones have the given keys.
pub fn full_store(rng: &mut Rng, keys: &[Vec<u8>], slots: usize) -> Vec<u8> {
    let mut own: BTreeSet<Vec<u8>> = BTreeSet::new();
    let mut all = Vec::new();
    while all.len() < slots {
        let key = keys.get(all.len()).cloned().unwrap_or_else(|| wind_key(rng));
        let key = if own.contains(&key) { wind_key(rng) } else { key };
        if own.insert(key.clone()) {
            all.push(key);
        }
    }
    let value = |rng: &mut Rng| if rng.one_in(4) { recipe_value(rng) } else { largest_recipe(rng) };
    all.iter().flat_map(|key| records::slot_bytes(key, &value(rng))).collect()
}

fn record_slot(rng: &mut Rng, record: &Option<(Vec<u8>, Vec<u8>)>, clean: bool) -> Vec<u8> {
    let mut slot = match record {
        Some((key, value)) => records::slot_bytes(key, value),
        None => vec![0; limits::RECORD_SLOT],
    };
    if !clean {
        for (at, byte) in slot.iter_mut().enumerate() {
            let used = match (at, record) {
                (0, _) => true,
                (_, None) => false,
                (2..=3, _) => true,
                (1 | 4..=7, _) => false,
                (8..=135, Some((key, _))) => at - 8 < key.len(),
                (_, Some((_, value))) => at - 136 < value.len(),
            };
            if !used {
                *byte = rng.byte();
            }
        }
    }
    slot
}

/// A byte that may break a store's form.
pub fn store_damage(rng: &mut Rng, store: &[u8]) -> (usize, u8) {
    let base = rng.below(store.len() / limits::RECORD_SLOT) * limits::RECORD_SLOT;
    match rng.below(6) {
        0 => (base, *rng.pick(&[0, 1, 6, 7, 128, 129, 255])),
        // the value's length, of which 3,072 is 00 0C
        1 => {
            let any = rng.byte();
            (base + 2, *rng.pick(&[0, 1, 15, 16, any]))
        }
        2 => (base + 3, *rng.pick(&[0, 7, 8, 11, 12, 12, 13, 255])),
        3 => (base + 8 + rng.below(6), rng.byte()),
        4 => (base + *rng.pick(&[1, 4, 5, 6, 7]), rng.byte()),
        _ => (base + rng.below(limits::RECORD_SLOT), rng.byte()),
    }
}

/// A store that is mostly out of form: a slot stands twice, a value is too long, or a byte is changed.
pub fn spoiled_store(rng: &mut Rng, keys: &[Vec<u8>], slots: usize) -> Vec<u8> {
    let count = slots.max(2);
    let clean = rng.one_in(2);
    let mut spoiled = store(rng, keys, count, clean);
    let (a, b) = (rng.below(count) * limits::RECORD_SLOT, rng.below(count) * limits::RECORD_SLOT);
    match rng.below(4) {
        0 => spoiled.copy_within(a..a + limits::RECORD_SLOT, b),
        1 => spoiled[a + 2..a + 4].copy_from_slice(&(limits::VALUE as u16 + *rng.pick(&[1, 1, 256])).to_le_bytes()),
        _ => {
            let (at, byte) = store_damage(rng, &spoiled);
            spoiled[at] = byte;
        }
    }
    spoiled
}

/// A framing that needn't be in form.
pub fn odd_framing(rng: &mut Rng) -> Framing {
    match rng.below(4) {
        0 => Framing::Shut,
        1 => {
            let n = rng.below(4);
            let top = if rng.one_in(3) { 0 } else { 0x80 };
            Framing::Prefix((0..n).map(|_| rng.byte() | top).collect())
        }
        _ => {
            let length = *rng.pick(&[0, 1, 5, 16_383, 16_384, 16_385, 100_000]);
            Framing::Body { length, have: *rng.pick(&[0, 1, 4, 5, 16_383, 16_384, 20_000]) }
        }
    }
}

/// A lookup in form with so many candidates, some of them the given ids, with marks mostly of one kind.
pub fn lookup_of(rng: &mut Rng, ids: &[Vec<u8>], count: usize) -> Lookup {
    let n = rng.size(1, limits::KEY);
    let key = rng.bytes(n);
    let place = place_of(&key);
    let usual = *rng.pick(&[Mark::Idle, Mark::Answered, Mark::Answered, Mark::Failed]);
    let other_one_in = *rng.pick(&[3, 20]);
    let mut held = BTreeMap::new();
    while held.len() < count {
        let id = if held.len() < ids.len() && rng.one_in(2) { rng.pick(ids).clone() } else { id(rng) };
        let mark = if rng.one_in(other_one_in) { *rng.pick(&[Mark::Idle, Mark::InFlight, Mark::InFlight, Mark::Answered, Mark::Failed]) } else { usual };
        let there = place_of(&id);
        held.entry(distance(&there, &place)).or_insert(Candidate { mark, id, place: there });
    }
    Lookup { key, place, limit: rng.between(1, 10) as u64, candidates: held.into_values().collect(), turned_away: rng.one_in(4) }
}

/// A lookup that needn't be in form.
pub fn odd_lookup(rng: &mut Rng, ids: &[Vec<u8>]) -> Lookup {
    let n = rng.size(1, limits::KEY);
    let key = rng.bytes(n);
    let place = place_of(&key);
    let mut candidates: Vec<Candidate> = Vec::new();
    for id in ids.iter().take(rng.size(0, 60)) {
        let mark = *rng.pick(&[Mark::Idle, Mark::InFlight, Mark::Answered, Mark::Failed]);
        candidates.push(Candidate { mark, id: id.clone(), place: place_of(id) });
    }
    candidates.sort_by_key(|c| distance(&c.place, &place));
    candidates.dedup_by_key(|c| c.place);
    let mut made = Lookup { key, place, limit: rng.between(1, 10) as u64, candidates, turned_away: rng.one_in(4) };
    let i = rng.below(made.candidates.len().max(1));
    match rng.below(8) {
        0 => made.limit = *rng.pick(&[0, 11, u64::MAX]),
        1 => made.key = odd_key(rng),
        2 if i + 1 < made.candidates.len() => made.candidates.swap(i, i + 1),
        3 if i < made.candidates.len() => made.candidates[i].id = odd_id(rng),
        4 if i < made.candidates.len() => made.candidates.insert(i, made.candidates[i].clone()),
        5 => made.place[rng.below(32)] ^= 1 << rng.below(8),
        _ => {}
    }
    made
}
