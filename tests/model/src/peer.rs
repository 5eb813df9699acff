//! A peer by value, the box itself, and lists of addresses as the host hands them in.

use crate::limits;
use crate::place::{place_of, Place};
use crate::Refusal;

/// "Peer id not 1 to 64 bytes" is 12.
pub fn id_fits(id: &[u8]) -> bool {
    (1..=limits::ID).contains(&id.len())
}

/// The addresses of a list: each a two-byte length, low byte first, and its bytes. One that runs past the end ends the list.
pub fn addresses_of(list: &[u8]) -> Vec<Vec<u8>> {
    let mut found = Vec::new();
    let mut at = 0;
    while at + 2 <= list.len() {
        let length = u16::from_le_bytes([list[at], list[at + 1]]) as usize;
        if at + 2 + length > list.len() {
            break;
        }
        found.push(list[at + 2..at + 2 + length].to_vec());
        at += 2 + length;
    }
    found
}

/// The list that says these addresses.
pub fn address_list(addresses: &[Vec<u8>]) -> Vec<u8> {
    let mut list = Vec::new();
    for address in addresses {
        list.extend((address.len() as u16).to_le_bytes());
        list.extend(address);
    }
    list
}

pub fn is_usable(address: &[u8]) -> bool {
    (1..=limits::ADDRESS).contains(&address.len())
}

/// "1 to 128 bytes; the first four usable": of a list that is handed in.
pub fn usable(list: &[u8]) -> Vec<Vec<u8>> {
    first_usable(&addresses_of(list))
}

/// The same of the box or of a connection's peer, whose numbers can be anything.
pub fn first_usable(addresses: &[Vec<u8>]) -> Vec<Vec<u8>> {
    addresses.iter().filter(|a| is_usable(a)).take(limits::ADDRESSES).cloned().collect()
}

#[derive(Clone, Copy, Debug, PartialEq, Eq)]
pub enum Mode {
    Server,
    Client,
}

/// The box itself. Its numbers come from the host at each call, so they can be anything; the place isn't hashed again.
#[derive(Clone, Debug, PartialEq, Eq)]
pub struct Me {
    pub id: Vec<u8>,
    pub place: Place,
    pub addresses: Vec<Vec<u8>>,
}

impl Me {
    /// The box's start: 12 if the id isn't 1 to 64 bytes; then there is no id, a place of zeros and no address.
    pub fn start(id: &[u8], addresses: &[u8]) -> (Me, Option<Refusal>) {
        if !id_fits(id) {
            return (Me { id: vec![], place: [0; 32], addresses: vec![] }, Some(Refusal::BadPeer));
        }
        (Me { id: id.to_vec(), place: place_of(id), addresses: usable(addresses) }, None)
    }

    /// 12 for our own id.
    pub fn stands(&self) -> Result<(), Refusal> {
        if id_fits(&self.id) {
            Ok(())
        } else {
            Err(Refusal::BadPeer)
        }
    }

    /// The place of a peer's id, or 12: for our own id, for the peer's, or where its place is ours.
    pub fn place_of(&self, id: &[u8]) -> Result<Place, Refusal> {
        self.stands()?;
        if !id_fits(id) || place_of(id) == self.place {
            return Err(Refusal::BadPeer);
        }
        Ok(place_of(id))
    }
}
