//! Messages: read where they lie, and written.
//!
//! ```
//! use starterbell::message::{Draft, Kind, Message};
//!
//! let bytes = Draft::find_node(b"AB").to_vec()?;
//! assert_eq!(bytes, [6, 8, 4, 18, 2, b'A', b'B']);
//!
//! let message = Message::read(&bytes[1..])?; // the body, without its length
//! assert_eq!((message.kind(), message.key()), (Kind::FindNode, &b"AB"[..]));
//! assert_eq!(message.closer_peers().count(), 0);
//! # Ok::<(), starterbell::Refusal>(())
//! ```

use crate::raw;
use crate::refusal::{answer, Refusal};
use crate::show::{Bytes, Length, List};
use alloc::vec;
use alloc::vec::Vec;
use core::fmt;
use core::ops::Range;

/// What a message is, with its number on the wire.
#[derive(Clone, Copy, Debug, PartialEq, Eq, Hash)]
pub enum Kind {
    /// Store this record.
    PutValue = 0,
    /// Which record has this key?
    GetValue = 1,
    /// Not served by this box.
    AddProvider = 2,
    /// Not served by this box.
    GetProviders = 3,
    /// Who is near this key?
    FindNode = 4,
    /// Are you there?
    Ping = 5,
}

impl Kind {
    /// All of them, by number.
    pub const ALL: [Kind; 6] = [Kind::PutValue, Kind::GetValue, Kind::AddProvider, Kind::GetProviders, Kind::FindNode, Kind::Ping];
}

/// What a message says of its sender's connection to a peer, with its number on the wire.
#[derive(Clone, Copy, Debug, Default, PartialEq, Eq, Hash)]
pub enum ConnectionType {
    /// Nothing is known.
    #[default]
    NotConnected = 0,
    /// There is one.
    Connected = 1,
    /// There was one not long ago.
    CanConnect = 2,
    /// It was tried, and failed.
    CannotConnect = 3,
}

impl ConnectionType {
    /// All of them, by number.
    pub const ALL: [ConnectionType; 4] = [ConnectionType::NotConnected, ConnectionType::Connected, ConnectionType::CanConnect, ConnectionType::CannotConnect];
}

/// A key and its value.
#[derive(Clone, Copy, PartialEq, Eq)]
pub struct Record<'a> {
    /// The key.
    pub key: &'a [u8],
    /// The value.
    pub value: &'a [u8],
}

impl fmt::Debug for Record<'_> {
    fn fmt(&self, f: &mut fmt::Formatter<'_>) -> fmt::Result {
        f.debug_struct("Record").field("key", &Bytes(self.key)).field("value", &Length(self.value.len())).finish()
    }
}

/// The part of a body that two numbers of a call's results name.
fn span(numbers: &[u64]) -> Range<usize> {
    numbers[0] as usize..numbers[1] as usize
}

/// A message where it lies in a body: nothing is copied.
#[derive(Clone, Copy)]
pub struct Message<'a> {
    body: &'a [u8],
    view: [u64; 8],
}

impl<'a> Message<'a> {
    /// Reads a body, which is a message without the length before it. Refused: over 16,384 bytes, not well formed, or of a type that isn't 0 to 5.
    pub fn read(body: &'a [u8]) -> Result<Message<'a>, Refusal> {
        let mut view = [0; 8];
        answer(raw::read(body, &mut view))?;
        Ok(Message { body, view })
    }

    /// A body and the view that a receive gave for it.
    pub(crate) fn of(body: &'a [u8], view: [u64; 8]) -> Message<'a> {
        Message { body, view }
    }

    /// The view, as [`raw::lookup_reply`] takes it.
    pub(crate) fn view(&self) -> &[u64] {
        &self.view
    }

    /// The bytes that it was read from.
    pub fn body(&self) -> &'a [u8] {
        self.body
    }

    /// What it is.
    pub fn kind(&self) -> Kind {
        Kind::ALL[self.view[0] as usize]
    }

    /// Its key, empty where it has none.
    pub fn key(&self) -> &'a [u8] {
        &self.body[span(&self.view[1..])]
    }

    /// Its record, if it has one. A sender may give it in several fields, its key in one and its value in another: it is read as though these stood one after
    /// another, so the last key of all counts, and the last value of all.
    pub fn record(&self) -> Option<Record<'a>> {
        (self.view[3] != 0).then(|| Record { key: &self.body[span(&self.view[4..])], value: &self.body[span(&self.view[6..])] })
    }

    /// The peers that it names as closer.
    pub fn closer_peers(&self) -> Entries<'a> {
        Entries { body: self.body, list: 0, from: 0 }
    }

    /// The peers that it names as providers.
    pub fn provider_peers(&self) -> Entries<'a> {
        Entries { body: self.body, list: 1, from: 0 }
    }
}

impl fmt::Debug for Message<'_> {
    fn fmt(&self, f: &mut fmt::Formatter<'_>) -> fmt::Result {
        let mut shown = f.debug_struct("Message");
        shown.field("kind", &self.kind()).field("key", &Bytes(self.key())).field("record", &self.record());
        shown.field("closer_peers", &self.closer_peers().count()).field("provider_peers", &self.provider_peers().count());
        shown.field("body", &Length(self.body.len())).finish()
    }
}

/// How many numbers [`raw::peer`] tells of a peer: the last sixteen are the ends of its first eight addresses.
const TOLD: usize = 22;

/// The peers of a message, one after another.
#[derive(Clone)]
pub struct Entries<'a> {
    body: &'a [u8],
    list: u32,
    from: usize,
}

impl<'a> Iterator for Entries<'a> {
    type Item = Entry<'a>;

    fn next(&mut self) -> Option<Entry<'a>> {
        let mut told = [0; TOLD];
        if raw::peer(self.body, self.list, self.from, &mut told) != 64 {
            return None;
        }
        self.from = span(&told).end;
        Some(Entry { body: self.body, told })
    }
}

impl fmt::Debug for Entries<'_> {
    fn fmt(&self, f: &mut fmt::Formatter<'_>) -> fmt::Result {
        f.debug_struct("Entries").field("left", &self.clone().count()).finish()
    }
}

/// A peer that a message names.
#[derive(Clone)]
pub struct Entry<'a> {
    body: &'a [u8],
    told: [u64; TOLD],
}

impl<'a> Entry<'a> {
    /// Its id. Whoever sent the message chose it: it may have any length.
    pub fn id(&self) -> &'a [u8] {
        &self.body[span(&self.told[2..])]
    }

    /// What the sender says of its connection to this peer.
    pub fn connection(&self) -> ConnectionType {
        ConnectionType::ALL[self.told[4] as usize]
    }

    /// Its addresses: as many, and as long, as the sender chose.
    pub fn addresses(&self) -> Addresses<'a> {
        Addresses { entry: self.clone(), given: 0, from: 0 }
    }
}

impl fmt::Debug for Entry<'_> {
    fn fmt(&self, f: &mut fmt::Formatter<'_>) -> fmt::Result {
        let mut shown = f.debug_struct("Entry");
        shown.field("id", &Bytes(self.id())).field("connection", &self.connection()).field("addresses", &self.told[5]).finish()
    }
}

/// The addresses of a peer that a message names, one after another.
#[derive(Clone)]
pub struct Addresses<'a> {
    entry: Entry<'a>,
    given: usize,
    /// Where the last one ended: those that were not told with the peer are looked for from there on.
    from: usize,
}

impl Addresses<'_> {
    /// Where the address after those that were given is.
    fn place(&self) -> Option<Range<usize>> {
        let told = &self.entry.told;
        if self.given >= told[5] as usize {
            return None;
        }
        if let Some(ends) = told[6..].chunks_exact(2).nth(self.given) {
            return Some(span(ends));
        }
        let (whole, mut out) = (span(told), [0; 2]);
        (raw::peer_address(self.entry.body, whole.start, whole.end, self.from, &mut out) == 64).then(|| span(&out))
    }
}

impl<'a> Iterator for Addresses<'a> {
    type Item = &'a [u8];

    fn next(&mut self) -> Option<&'a [u8]> {
        let place = self.place()?;
        self.given += 1;
        self.from = place.end;
        Some(&self.entry.body[place])
    }
}

impl fmt::Debug for Addresses<'_> {
    fn fmt(&self, f: &mut fmt::Formatter<'_>) -> fmt::Result {
        f.debug_struct("Addresses").field("of", &Bytes(self.entry.id())).field("left", &self.clone().count()).finish()
    }
}

/// A peer to be named in a message.
#[derive(Clone, Copy, Default, PartialEq, Eq)]
pub struct Named<'a> {
    /// Its id, at most 64 bytes.
    pub id: &'a [u8],
    /// Its addresses, at most four of at most 128 bytes.
    pub addresses: &'a [&'a [u8]],
    /// What is said of our connection to it.
    pub connection: ConnectionType,
}

impl fmt::Debug for Named<'_> {
    fn fmt(&self, f: &mut fmt::Formatter<'_>) -> fmt::Result {
        let addresses = List(self.addresses.iter().copied());
        f.debug_struct("Named").field("id", &Bytes(self.id)).field("addresses", &addresses).field("connection", &self.connection).finish()
    }
}

/// A message to be written.
///
/// ```
/// use starterbell::message::{Draft, Kind, Named};
///
/// let near = [Named { id: b"bench-7", addresses: &[b"/ip4/10.0.0.7/tcp/4001"], ..Named::default() }];
/// let reply = Draft { closer_peers: &near, ..Draft::new(Kind::FindNode) };
/// assert_eq!(reply.to_vec()?.len(), 40);
/// # Ok::<(), starterbell::Refusal>(())
/// ```
#[derive(Clone, Copy, PartialEq, Eq)]
pub struct Draft<'a> {
    /// What it is.
    pub kind: Kind,
    /// Its key, at most 128 bytes; an empty one isn't written.
    pub key: &'a [u8],
    /// Its record, if it has one: a key of at most 128 bytes and a value of at most 3,072.
    pub record: Option<Record<'a>>,
    /// The peers that it names as closer.
    pub closer_peers: &'a [Named<'a>],
    /// The peers that it names as providers.
    pub provider_peers: &'a [Named<'a>],
}

impl<'a> Draft<'a> {
    /// A message of this kind, with nothing else in it.
    pub const fn new(kind: Kind) -> Draft<'a> {
        Draft { kind, key: &[], record: None, closer_peers: &[], provider_peers: &[] }
    }

    /// Are you there?
    pub const fn ping() -> Draft<'a> {
        Draft::new(Kind::Ping)
    }

    /// Who is near this key?
    pub const fn find_node(key: &'a [u8]) -> Draft<'a> {
        Draft { key, ..Draft::new(Kind::FindNode) }
    }

    /// Which record has this key?
    pub const fn get_value(key: &'a [u8]) -> Draft<'a> {
        Draft { key, ..Draft::new(Kind::GetValue) }
    }

    /// Store this value under this key.
    pub const fn put_value(key: &'a [u8], value: &'a [u8]) -> Draft<'a> {
        Draft { key, record: Some(Record { key, value }), ..Draft::new(Kind::PutValue) }
    }

    /// Writes it with its length before it, and says how many bytes that took. `out` has at least [`raw::REPLY`] bytes, whatever the message.
    pub fn write(&self, out: &mut [u8]) -> Result<usize, Refusal> {
        let record = self.record.unwrap_or(Record { key: &[], value: &[] });
        let held = u32::from(self.record.is_some());
        let (closer, providers) = (entries(self.closer_peers), entries(self.provider_peers));
        let mut length = [0];
        answer(raw::write(out, self.kind as u64, self.key, held, record.key, record.value, &closer, &providers, &mut length))?;
        Ok(length[0] as usize)
    }

    /// Writes it into memory of its own.
    pub fn to_vec(&self) -> Result<Vec<u8>, Refusal> {
        let mut out = vec![0; raw::REPLY];
        let length = self.write(&mut out)?;
        out.truncate(length);
        Ok(out)
    }
}

impl fmt::Debug for Draft<'_> {
    fn fmt(&self, f: &mut fmt::Formatter<'_>) -> fmt::Result {
        let mut shown = f.debug_struct("Draft");
        shown.field("kind", &self.kind).field("key", &Bytes(self.key)).field("record", &self.record);
        shown.field("closer_peers", &self.closer_peers.len()).field("provider_peers", &self.provider_peers.len()).finish()
    }
}

/// Peers as [`raw::write`] takes them (crates/writer, specs/Writer). What is over a limit is cut one past it, so that lengths fit and the writer refuses it.
fn entries(peers: &[Named<'_>]) -> Vec<u8> {
    let mut list = Vec::new();
    for peer in peers {
        put_sized(&mut list, &peer.id[..peer.id.len().min(65)]);
        list.push(peer.connection as u8);
        let mut addresses = Vec::new();
        for address in peer.addresses.iter().take(5) {
            put_sized(&mut addresses, &address[..address.len().min(129)]);
        }
        put_sized(&mut list, &addresses);
    }
    list
}

/// Bytes with their length before them, the lower byte first.
fn put_sized(list: &mut Vec<u8>, bytes: &[u8]) {
    list.extend_from_slice(&(bytes.len() as u16).to_le_bytes());
    list.extend_from_slice(bytes);
}
