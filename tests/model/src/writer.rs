//! The writer as an entry point: a whole message, with its length before it, into a lent buffer.

use crate::limits;
use crate::message::{encode, Message, Peer, PING};
use crate::peer::{address_list, addresses_of};
use crate::wire::minimal;
use crate::Refusal;

fn peer_fits(peer: &Peer) -> bool {
    peer.id.len() <= limits::ID
        && peer.connection <= 3
        && peer.addresses.len() <= limits::ADDRESSES
        && peer.addresses.iter().all(|a| a.len() <= limits::ADDRESS)
}

fn parts_fit(m: &Message) -> bool {
    m.kind <= PING
        && m.key.len() <= limits::KEY
        && m.record.iter().all(|r| r.key.len() <= limits::KEY && r.value.len() <= limits::VALUE)
        && m.closer.iter().all(peer_fits)
        && m.providers.iter().all(peer_fits)
}

/// The body of a message within the limits, else 21.
pub fn body_of(m: &Message) -> Result<Vec<u8>, Refusal> {
    if !parts_fit(m) {
        return Err(Refusal::Unwritable);
    }
    let body = encode(m);
    if body.len() > limits::BODY {
        Err(Refusal::Unwritable)
    } else {
        Ok(body)
    }
}

/// "A message is an unsigned varint length, then the body."
pub fn framed(body: &[u8]) -> Vec<u8> {
    let mut out = minimal(body.len() as u64);
    out.extend(body);
    out
}

/// 1, 21, or how many bytes were written; later bytes stay.
pub fn write(out: &mut [u8], m: &Message) -> Result<usize, Refusal> {
    if out.len() < limits::REPLY {
        return Err(Refusal::SmallBuffer);
    }
    let whole = framed(&body_of(m)?);
    out[..whole.len()].copy_from_slice(&whole);
    Ok(whole.len())
}

/// Peers as they are handed to the writer: a u16 id length (low byte first), the id, a u8 connection, a u16 length of the address list,
/// and that list. An entry that runs past the end ends the list.
pub fn peers_of(list: &[u8]) -> Vec<Peer> {
    let mut found = Vec::new();
    let mut rest = list;
    while let Some((peer, after)) = first_peer(rest) {
        found.push(peer);
        rest = after;
    }
    found
}

fn split(list: &[u8], n: usize) -> Option<(&[u8], &[u8])> {
    if n > list.len() {
        None
    } else {
        Some(list.split_at(n))
    }
}

fn counted(list: &[u8]) -> Option<(&[u8], &[u8])> {
    let (length, rest) = split(list, 2)?;
    split(rest, usize::from(length[0]) + 256 * usize::from(length[1]))
}

fn first_peer(list: &[u8]) -> Option<(Peer, &[u8])> {
    let (id, rest) = counted(list)?;
    let (connection, rest) = split(rest, 1)?;
    let (addresses, rest) = counted(rest)?;
    Some((Peer { id: id.to_vec(), addresses: addresses_of(addresses), connection: u64::from(connection[0]) }, rest))
}

/// The list that says these peers; connections are cut to a byte.
pub fn peer_list(peers: &[Peer]) -> Vec<u8> {
    let mut list = Vec::new();
    for peer in peers {
        list.extend((peer.id.len() as u16).to_le_bytes());
        list.extend(&peer.id);
        list.push(peer.connection as u8);
        let addresses = address_list(&peer.addresses);
        list.extend((addresses.len() as u16).to_le_bytes());
        list.extend(addresses);
    }
    list
}
