//! Lent memory: made-up tables are in form, spoiled ones give 0, and the calls do to the bytes what they say of the buckets.

use starterbell_model::contacts::{self, Contact, Newcomer, Seen, Settled};
use starterbell_model::gen::{self, Rng};
use starterbell_model::peer::{usable, Me, Mode};
use starterbell_model::place::{bucket, distance, place_of};
use starterbell_model::{limits, recipe, records, Refusal};
use std::collections::BTreeMap;

fn start(rng: &mut Rng) -> (Me, Vec<Vec<u8>>) {
    let me = Me::start(&gen::id(rng), &gen::address_list(rng)).0;
    let ids = (0..80).map(|_| gen::id(rng)).filter(|id| place_of(id) != me.place).collect();
    (me, ids)
}

#[test]
fn made_up_memory_is_in_form() {
    let mut rng = Rng::new(21);
    let (mut leapers, mut long, mut longest, mut doubtful, mut trusted) = (0, 0, 0, 0, 0);
    for round in 0..600 {
        let (me, ids) = start(&mut rng);
        let slots = rng.size(0, 120);
        let clean = rng.one_in(2);
        let table = gen::table(&mut rng, &me.place, &ids, slots, clean);
        let all = contacts::entries(&table, &me.place).unwrap_or_else(|_| panic!("round {round}"));
        doubtful += all.iter().flatten().filter(|e| e.doubtful).count();
        trusted += all.iter().flatten().filter(|e| !e.doubtful).count();
        let keys: Vec<Vec<u8>> = (0..9).map(|_| gen::wind_key(&mut rng)).collect();
        let slots = rng.size(0, 20);
        let store = gen::store(&mut rng, &keys, slots, clean);
        let held = records::entries(&store).expect("in form").into_iter().flatten();
        let held: Vec<records::Entry> = held.filter(|e| keys.iter().any(|key| key == e.key)).collect();
        leapers += held.iter().filter(|e| recipe::is_leaper(e.value)).count();
        long += held.iter().filter(|e| e.value.len() > 2_048).count();
        longest += held.iter().filter(|e| e.value.len() == 3_072).count();
    }
    assert!(leapers > 100 && long > 100 && longest > 40 && doubtful > 1_000 && trusted > 2_000, "{leapers} {long} {longest} {doubtful} {trusted}");
}

#[test]
fn spoiled_memory_gives_0_and_stays() {
    let mut rng = Rng::new(22);
    let mut spoiled_tables = 0;
    let mut spoiled_stores = 0;
    let mut over_by_one = 0;
    for _ in 0..1_500 {
        let (me, ids) = start(&mut rng);
        let mut table = gen::spoiled_table(&mut rng, &me.place, &ids, 20);
        if !contacts::in_form(&table, &me.place) {
            let before = table.clone();
            assert_eq!(contacts::seen(&mut table, &me, &ids[0], Mode::Server, &[]), Seen::Refused(Refusal::OutOfForm));
            assert_eq!(contacts::remove(&mut table, &me, &ids[0]), Err(Refusal::OutOfForm));
            assert_eq!(contacts::doubt(&mut table, &me, &ids[0]), Err(Refusal::OutOfForm));
            let newcomer = Newcomer { id: &ids[1], mode: Mode::Server, addresses: &[] };
            assert_eq!(contacts::settle(&mut table, &me, &ids[0], newcomer, true), Err(Refusal::OutOfForm));
            assert_eq!(contacts::nearest(&table, &me, &[1]), Err(Refusal::OutOfForm));
            assert_eq!(table, before);
            spoiled_tables += 1;
        }
        let keys = vec![gen::wind_key(&mut rng)];
        let mut store = gen::spoiled_store(&mut rng, &keys, 6);
        if !records::in_form(&store) {
            let before = store.clone();
            assert_eq!(records::put(&mut store, &keys[0], &gen::recipe_value(&mut rng)), Err(Refusal::OutOfForm));
            assert_eq!(records::find(&store, &keys[0]), Err(Refusal::OutOfForm));
            assert_eq!(store, before);
            spoiled_stores += 1;
            over_by_one += usize::from(store.chunks_exact(limits::RECORD_SLOT).any(|slot| slot[0] != 0 && slot[2..4] == 3_073u16.to_le_bytes()));
        }
    }
    assert!(spoiled_tables > 300 && spoiled_stores > 200 && over_by_one > 50, "{spoiled_tables} {spoiled_stores} {over_by_one}");
}

/// The table as the rules speak of it: buckets from head to tail, nothing of slots. A contact is an id, addresses, and whether it is doubtful.
type Buckets = BTreeMap<usize, Vec<(Vec<u8>, Vec<Vec<u8>>, bool)>>;

fn as_buckets(table: &[u8], me: &Me) -> Buckets {
    let plain = |c: &Contact| (c.id.clone(), c.addresses.clone(), c.doubtful);
    contacts::buckets(table, &me.place).iter().map(|(n, b)| (*n, b.iter().map(plain).collect())).collect()
}

fn plain_seen(buckets: &mut Buckets, slots: usize, me: &Me, id: &[u8], addresses: Vec<Vec<u8>>) -> Option<u8> {
    let used: usize = buckets.values().map(Vec::len).sum();
    let of_bucket = buckets.entry(bucket(&place_of(id), &me.place)).or_default();
    let outcome = if let Some(i) = of_bucket.iter().position(|c| c.0 == id) {
        let (_, old, _) = of_bucket.remove(i);
        of_bucket.push((id.to_vec(), if addresses.is_empty() { old } else { addresses }, false));
        None
    } else if of_bucket.len() == 20 {
        Some(13)
    } else if used == slots {
        Some(14)
    } else {
        of_bucket.push((id.to_vec(), addresses, false));
        None
    };
    buckets.retain(|_, b| !b.is_empty());
    outcome
}

fn plain_settle(buckets: &mut Buckets, me: &Me, head: &[u8], id: &[u8], addresses: Vec<Vec<u8>>, answered: bool) -> Option<u8> {
    let same_bucket = bucket(&place_of(id), &me.place) == bucket(&place_of(head), &me.place);
    match buckets.get_mut(&bucket(&place_of(head), &me.place)) {
        Some(b) if b.len() == 20 && b[0].0 == head && same_bucket && !b.iter().any(|c| c.0 == id) => {
            let (head, old, _) = b.remove(0);
            b.push(if answered { (head, old, false) } else { (id.to_vec(), addresses, false) });
            None
        }
        _ => Some(15),
    }
}

fn plain_remove(buckets: &mut Buckets, me: &Me, id: &[u8]) -> Option<u8> {
    let number = bucket(&place_of(id), &me.place);
    let found = buckets.get(&number).and_then(|b| b.iter().position(|c| c.0 == id));
    if let Some(i) = found {
        buckets.get_mut(&number).expect("there").remove(i);
    }
    buckets.retain(|_, b| !b.is_empty());
    if found.is_some() {
        None
    } else {
        Some(15)
    }
}

fn plain_doubt(buckets: &mut Buckets, id: &[u8]) -> Option<u8> {
    let found = buckets.values_mut().flatten().find(|c| c.0 == id);
    let refusal = if found.is_some() { None } else { Some(15) };
    found.into_iter().for_each(|c| c.2 = true);
    refusal
}

#[test]
fn the_calls_do_what_the_buckets_say() {
    let mut rng = Rng::new(23);
    let mut refusals = BTreeMap::new();
    for _ in 0..40 {
        let (me, ids) = start(&mut rng);
        let slots = rng.between(20, 70);
        let mut table = vec![0; slots * limits::CONTACT_SLOT + rng.below(616)];
        let mut plain = Buckets::new();
        for _ in 0..600 {
            let (id, list) = (rng.pick(&ids).clone(), gen::address_list(&mut rng));
            let got = match rng.below(10) {
                0 => {
                    assert_eq!(contacts::remove(&mut table, &me, &id).err().map(|r| r.number()), plain_remove(&mut plain, &me, &id));
                    None
                }
                3..=4 => {
                    assert_eq!(contacts::doubt(&mut table, &me, &id).err().map(|r| r.number()), plain_doubt(&mut plain, &id));
                    None
                }
                1..=2 => {
                    let full = plain.values().find(|b| b.len() == 20).map(|b| b[0].0.clone());
                    let head = full.unwrap_or_else(|| rng.pick(&ids).clone());
                    let answered = rng.one_in(2);
                    let newcomer = Newcomer { id: &id, mode: Mode::Server, addresses: &list };
                    let got = contacts::settle(&mut table, &me, &head, newcomer, answered);
                    assert_eq!(got.err().map(|r| r.number()), plain_settle(&mut plain, &me, &head, &id, usable(&list), answered));
                    assert!(got.is_err() || got == Ok(if answered { Settled::Kept } else { Settled::Swapped }));
                    got.err()
                }
                _ => {
                    let got = contacts::seen(&mut table, &me, &id, Mode::Server, &list).refusal();
                    assert_eq!(got.map(|r| r.number()), plain_seen(&mut plain, slots, &me, &id, usable(&list)));
                    got
                }
            };
            *refusals.entry(got).or_insert(0) += 1;
            assert_eq!(as_buckets(&table, &me), plain);
        }
        check_padding(&table, &me);
    }
    assert!(refusals.len() == 4, "{refusals:?}");
}

/// Memory once cleared and changed by calls alone has zeros wherever nothing is held.
fn check_padding(table: &[u8], me: &Me) {
    let all = contacts::entries(table, &me.place).expect("in form");
    for (i, entry) in all.iter().enumerate() {
        let slot = &table[i * limits::CONTACT_SLOT..(i + 1) * limits::CONTACT_SLOT];
        let expected = entry.map_or(vec![0; limits::CONTACT_SLOT], |_| contacts::slot_bytes(&contacts::contact(table, i)));
        assert_eq!(slot, expected);
    }
}

#[test]
fn nearest_leaves_nobody_nearer_out() {
    let mut rng = Rng::new(24);
    for _ in 0..200 {
        let (me, ids) = start(&mut rng);
        let slots = rng.below(150);
        let table = gen::table(&mut rng, &me.place, &ids, slots, true);
        let key = gen::key(&mut rng);
        let target = place_of(&key);
        let away = |i: usize| distance(&contacts::contact(&table, i).place, &target);
        let all: Vec<usize> = contacts::entries(&table, &me.place).unwrap().iter().enumerate().filter(|(_, e)| e.is_some()).map(|(i, _)| i).collect();
        let all: Vec<usize> = all.into_iter().filter(|i| !contacts::contact(&table, *i).doubtful).collect();
        let near = contacts::nearest(&table, &me, &key).unwrap();
        assert_eq!(near.len(), all.len().min(20));
        assert!(near.iter().all(|i| all.contains(i)));
        assert!(near.windows(2).all(|w| away(w[0]) < away(w[1])));
        assert!(all.iter().filter(|i| !near.contains(i)).all(|i| away(*i) > away(near[19])));
    }
}
