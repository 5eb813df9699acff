//! Saved memory: the bytes of a box or of a lookup, with what tells a whole save from a torn one around them.
//!
//! What it is, in 16 bytes; the length of each part, in 8 bytes, the lowest first; the parts; a sum of all before it, in 8 bytes.

use crate::refusal::Refusal;
use alloc::vec::Vec;

/// What is saved. The digit is the layout's: it goes up whenever the bytes of a part come to mean something else.
pub(crate) const BOX: &[u8; 16] = b"starterbell/box2";
pub(crate) const LOOKUP: &[u8; 16] = b"starterbell/ask1";

const NUMBER: usize = 8;

/// Parts as bytes to be saved.
pub(crate) fn pack(what: &[u8; 16], parts: &[&[u8]]) -> Vec<u8> {
    let mut saved = Vec::from(what);
    saved.extend(parts.iter().flat_map(|part| (part.len() as u64).to_le_bytes()));
    parts.iter().for_each(|part| saved.extend_from_slice(part));
    let sum = sum(&saved).to_le_bytes();
    saved.extend_from_slice(&sum);
    saved
}

/// The parts of saved bytes. Refused where they are of something else, cut short, longer, or not as they were written.
pub(crate) fn unpack<'a, const N: usize>(what: &[u8; 16], saved: &'a [u8]) -> Result<[&'a [u8]; N], Refusal> {
    parts(what, saved).ok_or(Refusal::OutOfForm)
}

fn parts<'a, const N: usize>(what: &[u8; 16], saved: &'a [u8]) -> Option<[&'a [u8]; N]> {
    let (written, end) = saved.split_last_chunk::<NUMBER>()?;
    let mut rest = written.strip_prefix(what)?;
    if sum(written) != u64::from_le_bytes(*end) {
        return None;
    }
    let lengths = lengths::<N>(&mut rest)?;
    let mut parts = [rest; N];
    for (part, length) in parts.iter_mut().zip(lengths) {
        (*part, rest) = rest.split_at_checked(length)?;
    }
    rest.is_empty().then_some(parts)
}

fn lengths<const N: usize>(rest: &mut &[u8]) -> Option<[usize; N]> {
    let mut lengths = [0; N];
    for length in &mut lengths {
        let (number, after) = rest.split_first_chunk::<NUMBER>()?;
        *length = usize::try_from(u64::from_le_bytes(*number)).ok()?;
        *rest = after;
    }
    Some(lengths)
}

/// FNV-1a of 64 bits. It tells bytes that went wrong by accident; it is no signature.
fn sum(bytes: &[u8]) -> u64 {
    bytes.iter().fold(0xcbf2_9ce4_8422_2325, |sum, byte| (sum ^ u64::from(*byte)).wrapping_mul(0x0100_0000_01b3))
}
