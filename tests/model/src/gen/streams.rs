//! Streams of messages, cut anywhere.

use super::Rng;
use crate::writer::framed;

/// Messages one after another, each with its length before it.
pub fn stream(bodies: &[Vec<u8>]) -> Vec<u8> {
    bodies.iter().flat_map(|b| framed(b)).collect()
}

/// A prefix that a stream refuses, or nearly.
pub fn odd_prefix(rng: &mut Rng) -> Vec<u8> {
    match rng.below(6) {
        0 => vec![0x80, 0x00],
        1 => vec![0x80 | rng.byte(), 0x80 | rng.byte(), 0x00],
        2 => vec![0x81, 0x80, 0x01],
        3 => vec![0x80 | rng.byte(), 0x80 | rng.byte(), 0x80 | rng.byte(), 1],
        4 => vec![0x80 | rng.byte(), 0x80 | rng.byte(), rng.between(1, 127) as u8],
        _ => vec![0x80 | rng.byte(), rng.below(128) as u8],
    }
}

/// Bytes cut anywhere, empty pieces among them.
pub fn cut(rng: &mut Rng, bytes: &[u8]) -> Vec<Vec<u8>> {
    let most = *rng.pick(&[1, 2, 7, 64, 4_096, 20_000]);
    let mut pieces = Vec::new();
    let mut at = 0;
    while at < bytes.len() {
        let n = rng.below(most + 1).min(bytes.len() - at);
        pieces.push(bytes[at..at + n].to_vec());
        at += n;
    }
    pieces
}
