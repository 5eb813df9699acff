//! Ids, keys, addresses and places.

use super::Rng;
use crate::limits;
use crate::peer;
use crate::place::Place;

/// An id of 1 to 64 bytes.
pub fn id(rng: &mut Rng) -> Vec<u8> {
    let n = rng.size(1, limits::ID);
    rng.bytes(n)
}

/// An id that is mostly too short or too long.
pub fn odd_id(rng: &mut Rng) -> Vec<u8> {
    let n = *rng.pick(&[0, 0, 1, 64, 65, 65, 66, 128, 200, 257, 320]);
    rng.bytes(n)
}

/// A key for requests and lookups.
pub fn key(rng: &mut Rng) -> Vec<u8> {
    let n = rng.size(1, limits::KEY);
    rng.bytes(n)
}

pub fn odd_key(rng: &mut Rng) -> Vec<u8> {
    let n = *rng.pick(&[0, 0, 1, 127, 128, 129, 129, 257, 384, 500]);
    rng.bytes(n)
}

/// A record key.
pub fn wind_key(rng: &mut Rng) -> Vec<u8> {
    let n = rng.size(1, limits::KEY - limits::WIND.len());
    [limits::WIND.to_vec(), rng.bytes(n)].concat()
}

/// Record keys, some of which differ from another one in their last byte alone, or go on where another ends.
pub fn wind_keys(rng: &mut Rng, n: usize) -> Vec<Vec<u8>> {
    let mut keys: Vec<Vec<u8>> = vec![wind_key(rng)];
    while keys.len() < n {
        let mut key = if rng.one_in(2) { wind_key(rng) } else { rng.pick(&keys).clone() };
        match rng.below(3) {
            0 => *key.last_mut().expect("7 bytes or more") ^= 1 << rng.below(8),
            1 if key.len() < limits::KEY => key.push(rng.byte()),
            _ => {}
        }
        keys.push(key);
    }
    keys
}

/// A key that is nearly a record key.
pub fn odd_wind_key(rng: &mut Rng) -> Vec<u8> {
    let mut key = wind_key(rng);
    match rng.below(5) {
        0 => key.truncate(rng.below(7)),
        1 => key.resize(*rng.pick(&[129, 130, 140, 263]), b'a'),
        2 => key[rng.below(6)] ^= 1 << rng.below(8),
        3 => drop(key.remove(0)),
        _ => key.clear(),
    }
    key
}

/// An address that is mostly usable.
pub fn address(rng: &mut Rng) -> Vec<u8> {
    let n = if rng.one_in(8) { *rng.pick(&[0, 129, 130, 300]) } else { rng.size(1, limits::ADDRESS) };
    rng.bytes(n)
}

/// A usable address.
pub fn good_address(rng: &mut Rng) -> Vec<u8> {
    let n = rng.size(1, limits::ADDRESS);
    rng.bytes(n)
}

/// A list of addresses as a host hands it in: now and then empty, cut off, or followed by a stray byte.
pub fn address_list(rng: &mut Rng) -> Vec<u8> {
    let n = *rng.pick(&[0, 0, 1, 1, 2, 3, 4, 5, 7]);
    let addresses: Vec<Vec<u8>> = (0..n).map(|_| address(rng)).collect();
    let mut list = peer::address_list(&addresses);
    match rng.below(10) {
        0 => list.truncate(rng.below(list.len() + 1)),
        1 => list.push(rng.byte()),
        2 => list.extend([rng.byte(), rng.byte(), 7]),
        _ => {}
    }
    list
}

/// Up to four usable addresses.
pub fn usable_addresses(rng: &mut Rng) -> Vec<Vec<u8>> {
    let n = rng.below(limits::ADDRESSES + 1);
    (0..n).map(|_| good_address(rng)).collect()
}

/// A place of a bucket: the bits before the bucket's number are ours, that one isn't, the others are anything.
pub fn place_in(rng: &mut Rng, ours: &Place, number: usize) -> Place {
    let mut place: Place = rng.bytes(32).try_into().expect("32 bytes");
    for bit in 0..=number.min(255) {
        let mask = 0x80 >> (bit % 8);
        let same = ours[bit / 8] & mask;
        let wanted = if bit == number { same ^ mask } else { same };
        place[bit / 8] = place[bit / 8] & !mask | wanted;
    }
    place
}
