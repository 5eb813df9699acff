//! The contact table on lent bytes. A slot has 616: rank plus 1 (0: free), 1 where the contact is doubtful and else 0, id length, number of addresses,
//! their four lengths, place (32), id (64), four addresses (128 each), with zeros after what is shorter.

use crate::limits;
use crate::peer::{usable, Me, Mode};
use crate::place::{bucket, distance, place_of, Place};
use crate::Refusal;
use std::collections::{BTreeMap, BTreeSet};

const DOUBT_AT: usize = 1;
const PLACE_AT: usize = 8;
const ID_AT: usize = 40;
const ADDRESSES_AT: usize = 104;

/// A contact by value.
#[derive(Clone, Debug, PartialEq, Eq)]
pub struct Contact {
    pub rank: usize,
    /// Marked by the host (request x), and not seen since.
    pub doubtful: bool,
    pub place: Place,
    pub id: Vec<u8>,
    pub addresses: Vec<Vec<u8>>,
}

pub fn slots(table: &[u8]) -> usize {
    (table.len() / limits::CONTACT_SLOT).min(limits::CONTACT_SLOTS)
}

fn slot(table: &[u8], i: usize) -> &[u8] {
    &table[i * limits::CONTACT_SLOT..(i + 1) * limits::CONTACT_SLOT]
}

fn slot_mut(table: &mut [u8], i: usize) -> &mut [u8] {
    &mut table[i * limits::CONTACT_SLOT..(i + 1) * limits::CONTACT_SLOT]
}

/// What the form test, buckets and distances need of a used slot.
#[derive(Clone, Copy, Debug, PartialEq, Eq)]
pub struct Entry {
    pub rank: usize,
    pub doubtful: bool,
    pub place: Place,
}

/// A slot alone: free, used, or 0 where a used one has a number out of range. Padding, and lengths of addresses past the number, aren't looked at.
fn entry(slot: &[u8]) -> Result<Option<Entry>, Refusal> {
    let (mark, doubt, id_length, count) = (slot[0] as usize, slot[DOUBT_AT], slot[2] as usize, slot[3] as usize);
    if mark == 0 {
        return Ok(None);
    }
    let fits = mark <= limits::NEAREST
        && doubt <= 1
        && (1..=limits::ID).contains(&id_length)
        && count <= limits::ADDRESSES
        && slot[4..4 + count].iter().all(|n| (1..=limits::ADDRESS).contains(&(*n as usize)));
    let place = slot[PLACE_AT..ID_AT].try_into().expect("32 bytes");
    if fits {
        Ok(Some(Entry { rank: mark - 1, doubtful: doubt == 1, place }))
    } else {
        Err(Refusal::OutOfForm)
    }
}

/// A table that is read: one entry for each slot.
pub type Entries = Vec<Option<Entry>>;

/// All slots of a table in form, or 0: "no place twice or ours, at most 20 to a bucket, ranked there 0 up with no gap or tie".
pub fn entries(table: &[u8], ours: &Place) -> Result<Entries, Refusal> {
    let all = (0..slots(table)).map(|i| entry(slot(table, i))).collect::<Result<Entries, _>>()?;
    let mut places = BTreeSet::new();
    let mut ranks: BTreeMap<usize, Vec<usize>> = BTreeMap::new();
    for e in all.iter().flatten() {
        if e.place == *ours || !places.insert(e.place) {
            return Err(Refusal::OutOfForm);
        }
        ranks.entry(bucket(&e.place, ours)).or_default().push(e.rank);
    }
    for of_bucket in ranks.values_mut() {
        of_bucket.sort();
        if of_bucket.len() > limits::NEAREST || !of_bucket.iter().copied().eq(0..of_bucket.len()) {
            return Err(Refusal::OutOfForm);
        }
    }
    Ok(all)
}

pub fn in_form(table: &[u8], ours: &Place) -> bool {
    entries(table, ours).is_ok()
}

/// The contact of a used slot in form.
pub fn contact(table: &[u8], i: usize) -> Contact {
    let s = slot(table, i);
    let at = |n: usize| ADDRESSES_AT + limits::ADDRESS * n;
    Contact {
        rank: s[0] as usize - 1,
        doubtful: s[DOUBT_AT] == 1,
        place: s[PLACE_AT..ID_AT].try_into().expect("32 bytes"),
        id: s[ID_AT..ID_AT + s[2] as usize].to_vec(),
        addresses: (0..s[3] as usize).map(|n| s[at(n)..at(n) + s[4 + n] as usize].to_vec()).collect(),
    }
}

/// The bytes of a slot that holds a contact.
pub fn slot_bytes(c: &Contact) -> Vec<u8> {
    let mut s = vec![0; limits::CONTACT_SLOT];
    s[0] = c.rank as u8 + 1;
    s[DOUBT_AT] = u8::from(c.doubtful);
    s[2] = c.id.len() as u8;
    s[3] = c.addresses.len() as u8;
    s[PLACE_AT..ID_AT].copy_from_slice(&c.place);
    s[ID_AT..ID_AT + c.id.len()].copy_from_slice(&c.id);
    for (n, address) in c.addresses.iter().enumerate() {
        let at = ADDRESSES_AT + limits::ADDRESS * n;
        s[4 + n] = address.len() as u8;
        s[at..at + address.len()].copy_from_slice(address);
    }
    s
}

/// The slots of the 20 nearest to a target, nearest first. "Passes over doubtful ones, so it gives the 20 nearest that aren't, or all such."
pub fn nearest_slots(all: &Entries, target: &Place) -> Vec<usize> {
    let away = |e: &Option<Entry>| e.filter(|e| !e.doubtful).map(|e| distance(&e.place, target));
    let mut by_distance: Vec<(Place, usize)> = all.iter().enumerate().filter_map(|(i, e)| Some((away(e)?, i))).collect();
    by_distance.sort();
    by_distance.into_iter().map(|(_, i)| i).take(limits::NEAREST).collect()
}

/// The nearest as a host asks for them, by slot: 0, 8 unless the key has 1 to 128 bytes, 12 for our own id.
pub fn nearest(table: &[u8], me: &Me, key: &[u8]) -> Result<Vec<usize>, Refusal> {
    let all = entries(table, &me.place)?;
    if key.is_empty() || key.len() > limits::KEY {
        return Err(Refusal::BreaksRules);
    }
    me.stands()?;
    Ok(nearest_slots(&all, &place_of(key)))
}

/// The slots of a bucket by rank: its head is first.
fn bucket_slots(all: &Entries, ours: &Place, number: usize) -> Vec<usize> {
    let of_bucket = |i: &usize| all[*i].is_some_and(|e| bucket(&e.place, ours) == number);
    let mut found: Vec<usize> = (0..all.len()).filter(of_bucket).collect();
    found.sort_by_key(|i| all[*i].expect("used").rank);
    found
}

fn slot_of(all: &Entries, place: &Place) -> Option<usize> {
    all.iter().position(|e| e.is_some_and(|e| e.place == *place))
}

/// Ranks a bucket's slots in this order. Only rank bytes change.
fn rank(table: &mut [u8], order: &[usize]) {
    for (rank, i) in order.iter().enumerate() {
        slot_mut(table, *i)[0] = rank as u8 + 1;
    }
}

/// A held contact moves to its bucket's tail, for it was seen or answered a probe: it is doubtful no more.
fn to_tail(table: &mut [u8], all: &Entries, ours: &Place, i: usize) {
    let mut order = bucket_slots(all, ours, bucket(&all[i].expect("held").place, ours));
    order.retain(|j| *j != i);
    order.push(i);
    rank(table, &order);
    slot_mut(table, i)[DOUBT_AT] = 0;
}

/// A held contact goes: its slot is cleared, and those behind it move up.
fn take_out(table: &mut [u8], all: &Entries, ours: &Place, i: usize) {
    let mut order = bucket_slots(all, ours, bucket(&all[i].expect("held").place, ours));
    order.retain(|j| *j != i);
    rank(table, &order);
    slot_mut(table, i).fill(0);
}

/// What a sighting came to.
#[derive(Clone, Debug, PartialEq, Eq)]
pub enum Seen {
    Moved {
        slot: usize,
    },
    Joined {
        slot: usize,
    },
    /// 13, with the bucket's head named for a probe.
    BucketFull {
        head_slot: usize,
        head_id: Vec<u8>,
    },
    Refused(Refusal),
}

impl Seen {
    pub fn refusal(&self) -> Option<Refusal> {
        match self {
            Seen::Moved { .. } | Seen::Joined { .. } => None,
            Seen::BucketFull { .. } => Some(Refusal::BucketFull),
            Seen::Refused(r) => Some(*r),
        }
    }
}

/// A sighting as a host makes it: 0, 12, 18, then held, 13, 14.
pub fn seen(table: &mut [u8], me: &Me, id: &[u8], mode: Mode, addresses: &[u8]) -> Seen {
    seen_peer(table, me, id, mode, &usable(addresses))
}

/// The same with addresses that are usable already.
pub fn seen_peer(table: &mut [u8], me: &Me, id: &[u8], mode: Mode, addresses: &[Vec<u8>]) -> Seen {
    let checked = entries(table, &me.place).and_then(|all| Ok((all, me.place_of(id)?)));
    let (all, place) = match checked {
        Ok(both) => both,
        Err(refusal) => return Seen::Refused(refusal),
    };
    if mode == Mode::Client {
        return Seen::Refused(Refusal::Client);
    }
    seen_place(table, &all, &me.place, id, &place, addresses)
}

/// A sighting in a table in form of a peer that isn't ours, as a server.
pub fn seen_place(table: &mut [u8], all: &Entries, ours: &Place, id: &[u8], place: &Place, addresses: &[Vec<u8>]) -> Seen {
    if let Some(i) = slot_of(all, place) {
        to_tail(table, all, ours, i);
        if !addresses.is_empty() {
            let moved = slot_bytes(&Contact { addresses: addresses.to_vec(), ..contact(table, i) });
            let kept = slot_mut(table, i);
            kept[3..PLACE_AT].copy_from_slice(&moved[3..PLACE_AT]);
            kept[ADDRESSES_AT..].copy_from_slice(&moved[ADDRESSES_AT..]);
        }
        return Seen::Moved { slot: i };
    }
    let order = bucket_slots(all, ours, bucket(place, ours));
    if order.len() == limits::NEAREST {
        return Seen::BucketFull { head_slot: order[0], head_id: contact(table, order[0]).id };
    }
    match all.iter().position(|e| e.is_none()) {
        None => Seen::Refused(Refusal::NoContactSlot),
        Some(i) => {
            let joins = Contact { rank: order.len(), doubtful: false, place: *place, id: id.to_vec(), addresses: addresses.to_vec() };
            slot_mut(table, i).copy_from_slice(&slot_bytes(&joins));
            Seen::Joined { slot: i }
        }
    }
}

/// What a settle did.
#[derive(Clone, Copy, Debug, PartialEq, Eq)]
pub enum Settled {
    /// The head answered: it is at the tail, the newcomer is dropped.
    Kept,
    /// The head was silent: it is gone, the newcomer is at the tail.
    Swapped,
}

/// "15 unless the bucket is full, the head is still its head, and the newcomer is of that bucket and not held."
fn head_slot(all: &Entries, ours: &Place, head: &Place, newcomer: &Place) -> Result<usize, Refusal> {
    let order = bucket_slots(all, ours, bucket(head, ours));
    let fits = order.len() == limits::NEAREST
        && all[order[0]].expect("used").place == *head
        && bucket(newcomer, ours) == bucket(head, ours)
        && slot_of(all, newcomer).is_none();
    if fits {
        Ok(order[0])
    } else {
        Err(Refusal::NoLongerFits)
    }
}

/// A newcomer as it is named for a settle.
#[derive(Clone, Copy, Debug)]
pub struct Newcomer<'a> {
    pub id: &'a [u8],
    pub mode: Mode,
    pub addresses: &'a [u8],
}

/// Settle: 0, 12 for either id, 15, 18.
pub fn settle(table: &mut [u8], me: &Me, head: &[u8], newcomer: Newcomer, answered: bool) -> Result<Settled, Refusal> {
    let all = entries(table, &me.place)?;
    let head_place = me.place_of(head)?;
    let place = me.place_of(newcomer.id)?;
    let i = head_slot(&all, &me.place, &head_place, &place)?;
    if newcomer.mode == Mode::Client {
        return Err(Refusal::Client);
    }
    if answered {
        to_tail(table, &all, &me.place, i);
        return Ok(Settled::Kept);
    }
    take_out(table, &all, &me.place, i);
    let all = entries(table, &me.place).expect("form is kept");
    seen_place(table, &all, &me.place, newcomer.id, &place, &usable(newcomer.addresses));
    Ok(Settled::Swapped)
}

/// Remove: 0, 12, 15 for a contact not held; else the slot it was in.
pub fn remove(table: &mut [u8], me: &Me, id: &[u8]) -> Result<usize, Refusal> {
    let all = entries(table, &me.place)?;
    let place = me.place_of(id)?;
    let i = slot_of(&all, &place).ok_or(Refusal::NoLongerFits)?;
    take_out(table, &all, &me.place, i);
    Ok(i)
}

/// Doubt: 0, 12, 15 for a contact not held; else the slot of the contact, which is doubtful from now on. Nothing but its mark changes.
pub fn doubt(table: &mut [u8], me: &Me, id: &[u8]) -> Result<usize, Refusal> {
    let all = entries(table, &me.place)?;
    let place = me.place_of(id)?;
    let i = slot_of(&all, &place).ok_or(Refusal::NoLongerFits)?;
    slot_mut(table, i)[DOUBT_AT] = 1;
    Ok(i)
}

/// The contacts of a table by bucket, each from head to tail: what a table says, whatever slots it uses.
pub fn buckets(table: &[u8], ours: &Place) -> BTreeMap<usize, Vec<Contact>> {
    let all = entries(table, ours).expect("in form");
    let numbers: BTreeSet<usize> = all.iter().flatten().map(|e| bucket(&e.place, ours)).collect();
    let of_bucket = |n: usize| bucket_slots(&all, ours, n).into_iter().map(|i| contact(table, i)).collect();
    numbers.into_iter().map(|n| (n, of_bucket(n))).collect()
}
