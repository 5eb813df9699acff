//! The record store on lent bytes. A slot has 3,208: key length (0: free), a zero, value length (low byte first), four zeros, key, value.

use crate::limits;
use crate::recipe;
use crate::Refusal;
use std::collections::BTreeSet;

const KEY_AT: usize = 8;
const VALUE_AT: usize = KEY_AT + limits::KEY;

/// "The six bytes /wind/ open every record key, with 1 to 122 more."
pub fn is_key(key: &[u8]) -> bool {
    key.starts_with(limits::WIND) && key.len() > limits::WIND.len() && key.len() <= limits::KEY
}

pub fn slots(store: &[u8]) -> usize {
    (store.len() / limits::RECORD_SLOT).min(limits::RECORD_SLOTS)
}

/// A slot that is read.
#[derive(Clone, Copy, Debug, PartialEq, Eq)]
pub struct Entry<'a> {
    pub key: &'a [u8],
    pub value: &'a [u8],
}

/// What a slot holds: nothing, an entry, or an error where a used one breaks its form. Reserved bytes and padding aren't looked at.
pub fn entry(store: &[u8], i: usize) -> Result<Option<Entry<'_>>, Refusal> {
    let slot = &store[i * limits::RECORD_SLOT..(i + 1) * limits::RECORD_SLOT];
    let key_length = slot[0] as usize;
    let value_length = slot[2] as usize + 256 * slot[3] as usize;
    if key_length == 0 {
        return Ok(None);
    }
    if key_length > limits::KEY || value_length < limits::VALUE_LEAST || value_length > limits::VALUE {
        return Err(Refusal::OutOfForm);
    }
    let key = &slot[KEY_AT..KEY_AT + key_length];
    if is_key(key) {
        Ok(Some(Entry { key, value: &slot[VALUE_AT..VALUE_AT + value_length] }))
    } else {
        Err(Refusal::OutOfForm)
    }
}

/// All slots of a store in form, or 0: "a /wind/ key of 7 to 128 bytes and a value of 16 to 3,072, no key twice".
pub fn entries(store: &[u8]) -> Result<Vec<Option<Entry<'_>>>, Refusal> {
    let all = (0..slots(store)).map(|i| entry(store, i)).collect::<Result<Vec<_>, _>>()?;
    let mut keys = BTreeSet::new();
    if all.iter().flatten().all(|e| keys.insert(e.key)) {
        Ok(all)
    } else {
        Err(Refusal::OutOfForm)
    }
}

pub fn in_form(store: &[u8]) -> bool {
    entries(store).is_ok()
}

fn slot_of(all: &[Option<Entry>], key: &[u8]) -> Option<usize> {
    all.iter().position(|e| e.is_some_and(|e| e.key == key))
}

/// A record that is found: its slot, and the value there.
#[derive(Clone, Debug, PartialEq, Eq)]
pub struct Found {
    pub slot: usize,
    pub value: Vec<u8>,
}

impl Found {
    /// Where in the store the value starts.
    pub fn at(&self) -> usize {
        self.slot * limits::RECORD_SLOT + VALUE_AT
    }
}

/// 0, or what is held under a key, which may be any bytes.
pub fn find(store: &[u8], key: &[u8]) -> Result<Option<Found>, Refusal> {
    let all = entries(store)?;
    Ok(slot_of(&all, key).map(|slot| Found { slot, value: all[slot].expect("found").value.to_vec() }))
}

/// The bytes of a slot that holds a record.
pub fn slot_bytes(key: &[u8], value: &[u8]) -> Vec<u8> {
    let mut slot = vec![0; limits::RECORD_SLOT];
    slot[0] = key.len() as u8;
    slot[2..4].copy_from_slice(&(value.len() as u16).to_le_bytes());
    slot[KEY_AT..KEY_AT + key.len()].copy_from_slice(key);
    slot[VALUE_AT..VALUE_AT + value.len()].copy_from_slice(value);
    slot
}

/// Where a put goes: 0, 8, 9, 10, 11 in this order; no slot where identical bytes are held, which "are accepted and change nothing". A held leaper's bytes are
/// 9: that rule "applies only after this test".
fn plan(store: &[u8], key: &[u8], value: &[u8]) -> Result<Option<usize>, Refusal> {
    let all = entries(store)?;
    if !is_key(key) {
        return Err(Refusal::BreaksRules);
    }
    recipe::read(value).map_err(|_| Refusal::BrokenRecipe)?;
    match slot_of(&all, key) {
        Some(i) if all[i].expect("held").value == value => Ok(None),
        Some(i) if recipe::outranks(all[i].expect("held").value, value) => Err(Refusal::Outranked),
        Some(i) => Ok(Some(i)),
        None => all.iter().position(|e| e.is_none()).map(Some).ok_or(Refusal::NoRecordSlot),
    }
}

/// A put, typed or sent: a refusal, or taken.
pub fn put(store: &mut [u8], key: &[u8], value: &[u8]) -> Result<(), Refusal> {
    if let Some(i) = plan(store, key, value)? {
        store[i * limits::RECORD_SLOT..(i + 1) * limits::RECORD_SLOT].copy_from_slice(&slot_bytes(key, value));
    }
    Ok(())
}
