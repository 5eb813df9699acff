//! The box, a connection and a lookup as bytes, written from the tables of their layout (crates/flat, crates/flat_lookup, crates/contacts) and from no code
//! there: the bytes of the model's values, and the values that any bytes are.

use starterbell_model::answers::Sender;
use starterbell_model::lookup::{Candidate, Lookup, Mark};
use starterbell_model::node::{Conn, Side};
use starterbell_model::peer::{Me, Mode};
use starterbell_model::place::Place;
use starterbell_model::stream::Framing;
use std::ops::Range;

pub const BOX: usize = 616;
pub const CONNECTION: usize = 640;
pub const LOOKUP: usize = 25_256;
/// Where a connection's framing stands, eight bytes.
pub const FRAMING: usize = 618;
const CANDIDATES: usize = 168;
const CANDIDATE: usize = 98;
const ROOM: usize = 256;

// ---- peers: a contact's slot with the mark 1

fn peer_bytes(id: &[u8], place: &Place, addresses: &[Vec<u8>]) -> Vec<u8> {
    let mut bytes = vec![0; BOX];
    bytes[0] = 1;
    bytes[2] = id.len() as u8;
    bytes[3] = addresses.len() as u8;
    bytes[8..40].copy_from_slice(place);
    bytes[40..40 + id.len()].copy_from_slice(id);
    for (k, address) in addresses.iter().enumerate() {
        bytes[4 + k] = address.len() as u8;
        bytes[104 + 128 * k..104 + 128 * k + address.len()].copy_from_slice(address);
    }
    bytes
}

/// The first bytes of a room, as many as its length says; where it says more than there is room for, zeros follow.
fn held(room: &[u8], length: u8) -> Vec<u8> {
    let mut bytes = room.to_vec();
    bytes.resize(length as usize, 0);
    bytes
}

fn place_at(bytes: &[u8], at: usize) -> Place {
    bytes[at..at + 32].try_into().expect("32 bytes")
}

/// Id, place and addresses. An address that there is no room for is empty.
fn peer_in(bytes: &[u8]) -> (Vec<u8>, Place, Vec<Vec<u8>>) {
    let address = |k: usize| if k < 4 { held(&bytes[104 + 128 * k..232 + 128 * k], bytes[4 + k]) } else { vec![] };
    (held(&bytes[40..104], bytes[2]), place_at(bytes, 8), (0..bytes[3] as usize).map(address).collect())
}

/// The places of a peer's bytes that follow its id, and say nothing. For an id of up to 64 bytes.
pub fn after_id(peer: &[u8]) -> Range<usize> {
    40 + peer[2] as usize..104
}

pub fn box_bytes(me: &Me) -> Vec<u8> {
    peer_bytes(&me.id, &me.place, &me.addresses)
}

pub fn box_in(bytes: &[u8]) -> Me {
    let (id, place, addresses) = peer_in(bytes);
    Me { id, place, addresses }
}

// ---- connections

/// Kind, number of prefix bytes, those bytes, the length of a begun body, how much of it is there.
pub fn framing_bytes(framing: &Framing) -> [u8; 8] {
    match framing {
        Framing::Shut => [0; 8],
        Framing::Prefix(held) => {
            let byte = |i: usize| held.get(i).copied().unwrap_or(0);
            [1, held.len() as u8, byte(0), byte(1), 0, 0, 0, 0]
        }
        Framing::Body { length, have } => {
            let ([a, b], [c, d]) = ((*length as u16).to_le_bytes(), (*have as u16).to_le_bytes());
            [2, 0, 0, 0, a, b, c, d]
        }
    }
}

/// What no call writes is out of form: a body of no bytes.
fn framing_in(bytes: &[u8]) -> Framing {
    let two = |at: usize| usize::from(u16::from_le_bytes([bytes[at], bytes[at + 1]]));
    match (bytes[0], bytes[1]) {
        (0, _) => Framing::Shut,
        (1, n) if n <= 2 => Framing::Prefix(bytes[2..2 + n as usize].to_vec()),
        (2, _) => Framing::Body { length: two(4), have: two(6) },
        _ => Framing::Body { length: 0, have: 0 },
    }
}

pub fn connection_bytes(conn: &Conn) -> Vec<u8> {
    let mut bytes = peer_bytes(&conn.peer.id, &conn.peer.place, &conn.peer.addresses);
    bytes.push(u8::from(conn.peer.mode == Mode::Server));
    bytes.push(u8::from(conn.side == Side::Asking));
    bytes.extend(framing_bytes(&conn.framing));
    bytes.resize(CONNECTION, 0);
    bytes
}

pub fn connection_in(bytes: &[u8]) -> Conn {
    let (id, place, addresses) = peer_in(bytes);
    let mode = if bytes[616] != 0 { Mode::Server } else { Mode::Client };
    let side = if bytes[617] != 0 { Side::Asking } else { Side::Serving };
    Conn { peer: Sender { id, place, mode, addresses }, side, framing: framing_in(&bytes[FRAMING..FRAMING + 8]) }
}

// ---- lookups

fn mark_byte(mark: Mark) -> u8 {
    match mark {
        Mark::Idle => 0,
        Mark::InFlight => 1,
        Mark::Answered => 2,
        Mark::Failed => 3,
    }
}

fn candidate_bytes(c: &Candidate) -> Vec<u8> {
    let mut bytes = vec![mark_byte(c.mark), c.id.len() as u8];
    bytes.extend(&c.id);
    bytes.resize(66, 0);
    bytes.extend(c.place);
    bytes
}

/// An unknown mark is out of form, which is said here by a candidate with no id.
fn candidate_in(bytes: &[u8]) -> Candidate {
    let known = [Mark::Idle, Mark::InFlight, Mark::Answered, Mark::Failed].get(bytes[0] as usize).copied();
    let id = if known.is_some() { held(&bytes[2..66], bytes[1]) } else { vec![] };
    Candidate { mark: known.unwrap_or(Mark::Idle), id, place: place_at(bytes, 66) }
}

/// The first eight bytes: number of candidates, lengths, limit, whether someone was turned away, zeros.
fn head_bytes(lookup: &Lookup) -> [u8; 8] {
    let [low, high] = (lookup.candidates.len() as u16).to_le_bytes();
    [low, high, lookup.key.len() as u8, lookup.limit as u8, u8::from(lookup.turned_away), 0, 0, 0]
}

/// A lookup that is in form, or the empty one.
pub fn lookup_bytes(lookup: &Lookup) -> Vec<u8> {
    let mut bytes = head_bytes(lookup).to_vec();
    bytes.extend(&lookup.key);
    bytes.resize(136, 0);
    bytes.extend(lookup.place);
    lookup.candidates.iter().for_each(|c| bytes.extend(candidate_bytes(c)));
    bytes.resize(LOOKUP.max(bytes.len()), 0);
    bytes
}

/// Past the room for candidates there are only numbers of them, which is out of form whatever they are.
pub fn lookup_in(bytes: &[u8]) -> Lookup {
    let count = usize::from(u16::from_le_bytes([bytes[0], bytes[1]]));
    let mut candidates: Vec<Candidate> = bytes[CANDIDATES..LOOKUP].chunks(CANDIDATE).take(count).map(candidate_in).collect();
    candidates.resize(count, Candidate { mark: Mark::Idle, id: vec![], place: [0; 32] });
    Lookup { key: held(&bytes[8..136], bytes[2]), place: place_at(bytes, 136), limit: u64::from(bytes[3]), candidates, turned_away: bytes[4] != 0 }
}

/// The bytes after a step on a lookup that was in form: the step's candidates, of which those that were there keep their bytes but for the mark; what stood
/// after the key, after ids, and past the candidates stays.
pub fn lookup_after(before: &[u8], lookup: &Lookup) -> Vec<u8> {
    let count = usize::from(u16::from_le_bytes([before[0], before[1]]));
    let mut old = before[CANDIDATES..].chunks(CANDIDATE).take(count).peekable();
    let mut bytes = before.to_vec();
    bytes[..8].copy_from_slice(&head_bytes(lookup));
    for (slot, c) in bytes[CANDIDATES..LOOKUP].chunks_mut(CANDIDATE).zip(&lookup.candidates).take(ROOM) {
        // both lists go by distance, so what was there comes in the same order
        match old.next_if(|b| b[66..98] == c.place) {
            Some(kept) => slot.copy_from_slice(kept),
            None => slot.copy_from_slice(&candidate_bytes(c)),
        }
        slot[0] = mark_byte(c.mark);
    }
    bytes
}
