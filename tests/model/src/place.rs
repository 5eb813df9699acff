//! Places, distances and buckets.

use crate::sha256::sha256;

pub type Place = [u8; 32];

/// "A place is SHA-256 of a peer id or key."
pub fn place_of(name: &[u8]) -> Place {
    sha256(name)
}

/// "Distance is the XOR read as a big-endian whole number": arrays compare from the first byte, which is that order.
pub fn distance(a: &Place, b: &Place) -> Place {
    let mut d = [0; 32];
    for i in 0..32 {
        d[i] = a[i] ^ b[i];
    }
    d
}

/// "The count of leading zero bits of the XOR with our place, 0 to 255"; 256 for our own place.
pub fn bucket(place: &Place, ours: &Place) -> usize {
    let d = distance(place, ours);
    (0..256).take_while(|bit| d[bit / 8] >> (7 - bit % 8) & 1 == 0).count()
}
