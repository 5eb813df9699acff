//! Peers: as a host hands them in, and as they lie in memory.

use crate::show::{Bytes, List};
use alloc::vec::Vec;
use core::fmt;

/// Whether a peer answers requests. Only servers become contacts.
#[derive(Clone, Copy, Debug, PartialEq, Eq, Hash)]
pub enum Mode {
    /// It asks and doesn't answer.
    Client,
    /// It answers requests too.
    Server,
}

/// A peer as the host knows it: who it is, how it can be reached, what it does.
///
/// An id has 1 to 64 bytes. Of the addresses the first four with 1 to 128 bytes are kept; they are the host's own affair, and go unread.
#[derive(Clone, Copy, PartialEq, Eq)]
pub struct Peer<'a> {
    /// Its id.
    pub id: &'a [u8],
    /// Its addresses.
    pub addresses: &'a [&'a [u8]],
    /// What it does.
    pub mode: Mode,
}

impl<'a> Peer<'a> {
    /// A peer that answers requests.
    pub const fn server(id: &'a [u8], addresses: &'a [&'a [u8]]) -> Peer<'a> {
        Peer { id, addresses, mode: Mode::Server }
    }

    /// A peer that only asks.
    pub const fn client(id: &'a [u8], addresses: &'a [&'a [u8]]) -> Peer<'a> {
        Peer { id, addresses, mode: Mode::Client }
    }

    /// 1 for a client.
    pub(crate) fn is_client(&self) -> u32 {
        u32::from(self.mode == Mode::Client)
    }
}

impl fmt::Debug for Peer<'_> {
    fn fmt(&self, f: &mut fmt::Formatter<'_>) -> fmt::Result {
        let addresses = List(self.addresses.iter().copied());
        f.debug_struct("Peer").field("id", &Bytes(self.id)).field("addresses", &addresses).field("mode", &self.mode).finish()
    }
}

/// Addresses as the exported functions take them: each with its length before it. One whose length doesn't fit is no usable address, and is left out.
pub(crate) fn listed(addresses: &[&[u8]]) -> Vec<u8> {
    let mut list = Vec::new();
    for address in addresses {
        if let Ok(length) = u16::try_from(address.len()) {
            list.extend_from_slice(&length.to_le_bytes());
            list.extend_from_slice(address);
        }
    }
    list
}

/// A peer where it lies in the box's memory: its id, its place and its addresses. Contacts are such, and so are a connection's peer and the box itself.
#[derive(Clone, Copy, PartialEq, Eq)]
pub struct Contact<'a>(&'a [u8]);

impl<'a> Contact<'a> {
    /// The slot has 616 bytes, laid out as crates/contacts says (specs/Table).
    pub(crate) fn at(slot: &'a [u8]) -> Contact<'a> {
        Contact(slot)
    }

    /// Its id.
    pub fn id(self) -> &'a [u8] {
        &self.0[40..40 + usize::from(self.0[2])]
    }

    /// Its place: the SHA-256 of its id.
    pub fn place(self) -> &'a [u8; 32] {
        self.0[8..40].try_into().expect("32 bytes")
    }

    /// Its addresses, up to four.
    pub fn addresses(self) -> impl ExactSizeIterator<Item = &'a [u8]> + Clone {
        let slot = self.0;
        (0..usize::from(slot[3])).map(move |k| &slot[104 + k * 128..][..usize::from(slot[4 + k])])
    }

    /// Whether a contact is marked as doubtful ([`Node::doubt`](crate::Node::doubt)). A connection's peer and the box itself never are.
    pub fn is_doubtful(self) -> bool {
        self.0[1] != 0
    }

    /// A contact's rank in its bucket: 0 for the head, which was seen longest ago.
    pub fn rank(self) -> u8 {
        self.0[0].saturating_sub(1)
    }
}

impl fmt::Debug for Contact<'_> {
    fn fmt(&self, f: &mut fmt::Formatter<'_>) -> fmt::Result {
        let mut shown = f.debug_struct("Contact");
        shown.field("id", &Bytes(self.id())).field("addresses", &List(self.addresses()));
        shown.field("rank", &self.rank()).field("doubtful", &self.is_doubtful()).finish()
    }
}
