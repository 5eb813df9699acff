//! The box.

use crate::connection::{Connection, Event, Received};
use crate::message::{Message, Record};
use crate::peer::{listed, Contact, Mode, Peer};
use crate::raw;
use crate::refusal::{answer, Refusal};
use crate::saved;
use crate::show::{Bytes, List, Of};
use alloc::boxed::Box;
use alloc::vec;
use alloc::vec::Vec;
use core::fmt;

/// How much a box can keep: slots of 616 bytes for contacts, and of 3,208 for records.
#[derive(Clone, Copy, Debug, PartialEq, Eq)]
pub struct Room {
    /// Contacts, at most 5,120; more aren't used, and take no memory.
    pub contacts: usize,
    /// Records, at most 256; more aren't used, and take no memory.
    pub records: usize,
}

impl Room {
    /// As much as a box can use: 4.0 megabytes.
    pub const MOST: Room = Room { contacts: raw::MOST_CONTACTS, records: raw::MOST_RECORDS };
}

impl Default for Room {
    /// 256 contacts and 64 records: 360 kilobytes.
    fn default() -> Room {
        Room { contacts: 256, records: 64 }
    }
}

/// What came of a peer that was seen.
#[derive(Clone, Copy, Debug, PartialEq, Eq)]
pub enum Seen<'a> {
    /// It was a contact, and is now the last of its bucket.
    Moved(Contact<'a>),
    /// It is a contact now.
    Joined(Contact<'a>),
    /// Its bucket is full. Ping this contact, the bucket's head, and tell [`Node::settle`] whether it answered.
    Probe(Contact<'a>),
}

/// What a probed head did.
#[derive(Clone, Copy, Debug, PartialEq, Eq, Hash)]
pub enum Probed {
    /// It answered, and stays.
    Answered,
    /// It didn't answer, and makes room.
    Silent,
}

/// Who got the place for which a head was probed.
#[derive(Clone, Copy, Debug, PartialEq, Eq, Hash)]
pub enum Settled {
    /// The head is kept.
    Kept,
    /// The newcomer has its place.
    Swapped,
}

/// A box, with the memory for its contacts, its records and its replies.
///
/// ```
/// use starterbell::{Node, Peer, Room, Seen};
///
/// let mut node = Node::start(b"bench-1", &[b"/ip4/10.0.0.1/tcp/4001"], Room::default())?;
/// let seen = node.seen(Peer::server(b"bench-2", &[b"/ip4/10.0.0.2/tcp/4001"]))?;
/// assert!(matches!(seen, Seen::Joined(contact) if contact.id() == b"bench-2"));
/// assert_eq!(node.nearest(b"any key")?.len(), 1);
/// # Ok::<(), starterbell::Refusal>(())
/// ```
///
/// # Stack
/// The figure with a call is the most that the exported function below it used in the project's stack test, with as much memory lent as it takes. The few lines of
/// Rust above that come on top, and weren't measured.
///
/// # Saving
/// A box is plain bytes, so a host may keep them over a power cut:
///
/// ```
/// # use starterbell::{Node, Peer, Room};
/// let mut node = Node::start(b"bench-1", &[], Room::default())?;
/// node.seen(Peer::server(b"bench-2", &[b"/ip4/10.0.0.2/tcp/4001"]))?;
/// let saved = node.save(); // to a file; later, maybe in another process:
/// let back = Node::restore(&saved)?;
/// assert_eq!((back.id(), back.contacts().count()), (node.id(), 1));
/// # Ok::<(), starterbell::Refusal>(())
/// ```
///
/// *What.* A save has all that a box keeps: its id and addresses, its contacts, which are ranked around its own place, and its records. Connections are over when the
/// power goes, so they aren't in it: open new ones. A probe on its way is forgotten, and its newcomer comes again. Lookups are saved by themselves, if at all
/// ([`Lookup::save`](crate::Lookup::save)).
///
/// *When.* Between calls, and whole: write it to a second file, flush that, and rename it to the first. Then a power cut leaves the old save or the new one.
///
/// *What is promised.* A box that is restored has the same memory, so that every call answers as though nothing had happened. What is torn, cut short, of another kind
/// or changed by accident is refused with [`Refusal::OutOfForm`] (0), and nothing is changed. A sum over the bytes tells; it is no signature. Who makes up bytes in form
/// with a right sum gets a box on which every call still returns and stays inside its memory, and nothing else is promised of what is in it.
///
/// *Versions.* Saved bytes are for the version that wrote them, of this crate and of the library that it links. Version 0.2 saved the same bytes as this one. And what
/// version 0.1 saved, whose values had at most 2,048 bytes, is taken too: [`Node::restore_older`] puts its records anew, and says which of them were refused;
/// [`Node::carry_over`] does that for record memory that a host laid out itself.
#[derive(Clone)]
pub struct Node {
    me: Box<[u8]>,
    contacts: Box<[u8]>,
    records: Box<[u8]>,
    reply: Box<[u8]>,
}

impl Node {
    /// Starts a box. Its id has 1 to 64 bytes; its first four addresses with 1 to 128 bytes are told to peers that ask for it.
    ///
    /// Stack: 2,327 bytes on Arm, 2,295 on x86-64.
    pub fn start(id: &[u8], addresses: &[&[u8]], room: Room) -> Result<Node, Refusal> {
        let mut node = Node {
            me: vec![0; raw::BOX].into(),
            contacts: vec![0; room.contacts.min(raw::MOST_CONTACTS) * raw::CONTACT].into(),
            records: vec![0; room.records.min(raw::MOST_RECORDS) * raw::RECORD].into(),
            reply: vec![0; raw::REPLY].into(),
        };
        answer(raw::start(&mut node.me, id, &listed(addresses)))?;
        Ok(node)
    }

    /// All that the box keeps, to be [restored](Node::restore) later: [what, when, and what is promised](Node#saving). As many bytes as its [room](Node::room) takes,
    /// and 664 more.
    pub fn save(&self) -> Vec<u8> {
        saved::pack(saved::BOX, &[&self.me, &self.contacts, &self.records])
    }

    /// A box as it was when it was [saved](Node::save). Refused with 0 where the bytes aren't a save of a box, or not as it was written; a save of version 0.1 is for
    /// [`restore_older`](Node::restore_older).
    ///
    /// Stack: as for [`nearest`](Node::nearest), which tests the form of the contacts.
    pub fn restore(saved: &[u8]) -> Result<Node, Refusal> {
        let [me, contacts, records] = saved::unpack(saved::BOX, saved)?;
        Node::of(me, contacts, records.into())
    }

    /// The box of which these are the bytes, where they are in form.
    pub(crate) fn of(me: &[u8], contacts: &[u8], records: Box<[u8]>) -> Result<Node, Refusal> {
        if !(is_started(me) && are_slots(contacts, raw::CONTACT, raw::MOST_CONTACTS) && are_slots(&records, raw::RECORD, raw::MOST_RECORDS)) {
            return Err(Refusal::OutOfForm);
        }
        // these change nothing, and test the form of what they are lent first
        answer(raw::nearest(me, contacts, b"any key", &mut []))?;
        answer(raw::find(&records, b"any key", &mut []))?;
        Ok(Node { me: me.into(), contacts: contacts.into(), records, reply: vec![0; raw::REPLY].into() })
    }

    /// The box's own bytes, as the exported functions take them.
    pub(crate) fn me(&self) -> &[u8] {
        &self.me
    }

    /// The contacts' bytes.
    pub(crate) fn table(&self) -> &[u8] {
        &self.contacts
    }

    /// Its id.
    pub fn id(&self) -> &[u8] {
        Contact::at(&self.me).id()
    }

    /// Its place: the SHA-256 of its id.
    pub fn place(&self) -> &[u8; 32] {
        Contact::at(&self.me).place()
    }

    /// Its addresses, up to four.
    pub fn addresses(&self) -> impl ExactSizeIterator<Item = &[u8]> {
        Contact::at(&self.me).addresses()
    }

    /// How much it can keep.
    pub fn room(&self) -> Room {
        Room { contacts: self.contacts.len() / raw::CONTACT, records: self.records.len() / raw::RECORD }
    }

    fn slot(&self, slot: u64) -> Contact<'_> {
        Contact::at(&self.contacts[slot as usize * raw::CONTACT..][..raw::CONTACT])
    }

    /// A peer was seen: it answered us. Those that ask are seen by [`receive`](Node::receive), which doesn't see those that we ask.
    ///
    /// Stack: 11,399 bytes on Arm, 11,287 on x86-64.
    pub fn seen(&mut self, peer: Peer<'_>) -> Result<Seen<'_>, Refusal> {
        let mut out = [0];
        let returned = raw::seen(&self.me, &mut self.contacts, peer.id, peer.is_client(), &listed(peer.addresses), &mut out);
        let contact = |node| Node::slot(node, out[0]);
        match answer(returned) {
            Ok(64) => Ok(Seen::Moved(contact(self))),
            Ok(_) => Ok(Seen::Joined(contact(self))),
            Err(Refusal::BucketFull) => Ok(Seen::Probe(contact(self))),
            Err(refusal) => Err(refusal),
        }
    }

    /// The probe of a bucket's head is over, for which a newcomer was waiting. Refused where the contacts have changed since.
    ///
    /// Stack: 12,615 bytes on Arm, 12,567 on x86-64.
    pub fn settle(&mut self, head: &[u8], newcomer: Peer<'_>, head_did: Probed) -> Result<Settled, Refusal> {
        let addresses = listed(newcomer.addresses);
        let answered = u32::from(head_did == Probed::Answered);
        match answer(raw::settle(&self.me, &mut self.contacts, head, newcomer.id, newcomer.is_client(), &addresses, answered))? {
            64 => Ok(Settled::Kept),
            _ => Ok(Settled::Swapped),
        }
    }

    /// Takes a contact out. Refused where it is none.
    ///
    /// Stack: 11,255 bytes on Arm, 11,143 on x86-64.
    pub fn remove(&mut self, id: &[u8]) -> Result<(), Refusal> {
        answer(raw::remove(&self.me, &mut self.contacts, id)).map(|_| ())
    }

    /// Marks a contact as doubtful, until it is seen or answers a probe: `nearest`, replies and new lookups pass over it. Refused where it is none.
    ///
    /// Stack: 10,615 bytes on Arm, 10,519 on x86-64.
    pub fn doubt(&mut self, id: &[u8]) -> Result<(), Refusal> {
        answer(raw::doubt(&self.me, &mut self.contacts, id)).map(|_| ())
    }

    /// Of the contacts that aren't doubtful, those nearest to a key of 1 to 128 bytes, nearest first: all, or twenty.
    ///
    /// Stack: 11,959 bytes on Arm, 11,831 on x86-64.
    pub fn nearest(&self, key: &[u8]) -> Result<Vec<Contact<'_>>, Refusal> {
        let mut out = [0; 21];
        answer(raw::nearest(&self.me, &self.contacts, key, &mut out))?;
        Ok(out[1..=out[0] as usize].iter().map(|&slot| self.slot(slot)).collect())
    }

    /// The contacts, in no order that means anything.
    pub fn contacts(&self) -> impl Iterator<Item = Contact<'_>> {
        self.contacts.chunks_exact(raw::CONTACT).filter(|slot| slot[0] != 0).map(Contact::at)
    }

    /// Puts a record of our own into the store: a key of `/wind/` and 1 to 122 bytes more, a value that is a [recipe](crate::recipe). Refused where the one
    /// that is held ranks higher. Boxes that start with no records and are offered the same ones, put here or sent by peers, hold the same in the end, in whatever
    /// order they came, unless one had no slot left ([`Refusal::NoRecordSlot`]).
    ///
    /// Stack: 527 bytes on Arm, 512 on x86-64.
    pub fn put(&mut self, key: &[u8], value: &[u8]) -> Result<(), Refusal> {
        answer(raw::put(&mut self.records, key, value)).map(|_| ())
    }

    /// The value that is held under a key.
    ///
    /// Stack: 575 bytes on Arm, 551 on x86-64.
    pub fn find(&self, key: &[u8]) -> Result<Option<&[u8]>, Refusal> {
        let mut out = [0; 2];
        match answer(raw::find(&self.records, key, &mut out))? {
            64 => Ok(Some(&self.records[out[0] as usize..out[1] as usize])),
            _ => Ok(None),
        }
    }

    /// The records, in no order that means anything.
    pub fn records(&self) -> impl Iterator<Item = Record<'_>> {
        // a slot is laid out as crates/records says (specs/Store)
        self.records.chunks_exact(raw::RECORD).filter(|slot| slot[0] != 0).map(|slot| {
            let length = usize::from(u16::from_le_bytes([slot[2], slot[3]]));
            Record { key: &slot[raw::KEY_AT..][..usize::from(slot[0])], value: &slot[raw::VALUE_AT..][..length] }
        })
    }

    /// A connection on which a peer asks and the box answers. Refused where the peer's id isn't 1 to 64 bytes, or is the box's own.
    ///
    /// Stack: 3,015 bytes on Arm, 2,999 on x86-64.
    pub fn accept(&self, peer: Peer<'_>) -> Result<Connection, Refusal> {
        self.open(peer, 0)
    }

    /// A connection on which we ask a peer. Refused as for [`accept`](Node::accept), with the same stack.
    pub fn connect(&self, peer: Peer<'_>) -> Result<Connection, Refusal> {
        self.open(peer, 1)
    }

    fn open(&self, peer: Peer<'_>, asking: u32) -> Result<Connection, Refusal> {
        let mut connection = Connection::room();
        let server = u32::from(peer.mode == Mode::Server);
        answer(raw::open(&self.me, &mut connection.state, peer.id, server, asking, &listed(peer.addresses)))?;
        Ok(connection)
    }

    /// Takes bytes of a piece up to the first event. Hand in the rest again until all are taken, or the connection is shut. How the bytes are cut into pieces
    /// changes nothing.
    ///
    /// Stack: 15,047 bytes on Arm, 15,527 on x86-64, whatever comes.
    ///
    /// ```
    /// use starterbell::{Event, Node, Peer, Room};
    ///
    /// let mut node = Node::start(b"bench-1", &[], Room::default())?;
    /// let mut connection = node.accept(Peer::client(b"someone", &[]))?;
    /// let mut piece: &[u8] = &[2, 8, 5, 6, 8, 4, 18, 2, b'A', b'B']; // a PING, and a FIND_NODE for the key AB
    /// let mut sent = Vec::new();
    /// while !piece.is_empty() {
    ///     let received = node.receive(&mut connection, piece);
    ///     piece = &piece[received.taken..];
    ///     match received.event {
    ///         Event::Reply(reply) => sent.extend_from_slice(reply),
    ///         Event::Refused(refusal) => return Err(refusal),
    ///         Event::More | Event::Heard(_) => {}
    ///     }
    /// }
    /// assert_eq!(sent, [2, 8, 5, 2, 8, 4]);
    /// # Ok::<(), starterbell::Refusal>(())
    /// ```
    pub fn receive<'n, 'c>(&'n mut self, connection: &'c mut Connection, piece: &[u8]) -> Received<'n, 'c> {
        let (returned, out) = self.take(connection, piece);
        self.received(connection, returned, out)
    }

    /// Takes a whole piece, and calls `each` with every reply and every message. Stops at a refusal: then no later byte of the connection counts.
    /// Its stack is that of [`receive`](Node::receive), and of what `each` does above it.
    ///
    /// ```
    /// use starterbell::{Event, Node, Peer, Room};
    ///
    /// let mut node = Node::start(b"bench-1", &[], Room::default())?;
    /// let mut connection = node.accept(Peer::client(b"someone", &[]))?;
    /// let mut sent = Vec::new();
    /// node.feed(&mut connection, &[2, 8, 5, 6, 8, 4, 18, 2, b'A', b'B'], |_, received| {
    ///     if let Event::Reply(reply) = received.event {
    ///         sent.extend_from_slice(reply);
    ///     }
    /// })?;
    /// assert_eq!(sent, [2, 8, 5, 2, 8, 4]);
    /// # Ok::<(), starterbell::Refusal>(())
    /// ```
    pub fn feed(&mut self, connection: &mut Connection, piece: &[u8], mut each: impl FnMut(&Node, Received<'_, '_>)) -> Result<(), Refusal> {
        let mut rest = piece;
        loop {
            let (returned, out) = self.take(connection, rest);
            let received = self.received(connection, returned, out);
            rest = &rest[received.taken..];
            match received.event {
                Event::More => {}
                Event::Refused(refusal) => return Err(refusal),
                Event::Reply(_) | Event::Heard(_) => each(self, received),
            }
            if rest.is_empty() {
                return Ok(());
            }
        }
    }

    /// The bytes of a connection are over, and it is shut. Refused where they ended inside a message.
    ///
    /// Stack: 512 bytes on Arm, 512 on x86-64.
    pub fn end(&self, connection: &mut Connection) -> Result<(), Refusal> {
        answer(raw::end(&self.me, &mut connection.state)).map(|_| ())
    }

    fn take(&mut self, connection: &mut Connection, piece: &[u8]) -> (u32, [u64; 12]) {
        let mut out = [0; 12];
        let Connection { state, buffer } = connection;
        let returned = raw::receive(&self.me, state, buffer, piece, &mut self.contacts, &mut self.records, &mut self.reply, &mut out);
        (returned, out)
    }

    /// What the numbers of a receive say.
    fn received<'n, 'c>(&'n self, connection: &'c Connection, returned: u32, out: [u64; 12]) -> Received<'n, 'c> {
        let [taken, length, sighting, slot, view @ ..] = out;
        let event = match answer(returned) {
            Ok(64) => Event::More,
            Ok(65) => Event::Reply(&self.reply[..length as usize]),
            Ok(_) => Event::Heard(Message::of(&connection.buffer[..length as usize], view)),
            Err(refusal) => Event::Refused(refusal),
        };
        let seen = match sighting {
            0 => None,
            1 => Some(Ok(Seen::Moved(self.slot(slot)))),
            2 => Some(Ok(Seen::Joined(self.slot(slot)))),
            3 => Some(Ok(Seen::Probe(self.slot(slot)))),
            _ => Some(Err(Refusal::NoContactSlot)),
        };
        Received { taken: taken as usize, event, seen }
    }
}

impl fmt::Debug for Node {
    /// Says who it is and how much it keeps.
    fn fmt(&self, f: &mut fmt::Formatter<'_>) -> fmt::Result {
        let (room, doubtful) = (self.room(), self.contacts().filter(|contact| contact.is_doubtful()).count());
        let mut shown = f.debug_struct("Node");
        shown.field("id", &Bytes(self.id())).field("addresses", &List(Contact::at(&self.me).addresses()));
        shown.field("contacts", &Of(self.contacts().count(), room.contacts)).field("doubtful", &doubtful);
        shown.field("records", &Of(self.records().count(), room.records)).finish()
    }
}

/// Whether these are the bytes that a start makes of the id and the addresses in them.
fn is_started(me: &[u8]) -> bool {
    // so that both can be read
    if me.len() != raw::BOX || me[2] > 64 || me[3] > 4 || me[4..8].iter().any(|length| *length > 128) {
        return false;
    }
    let (peer, mut again) = (Contact::at(me), [0; raw::BOX]);
    let addresses: Vec<&[u8]> = peer.addresses().collect();
    raw::start(&mut again, peer.id(), &listed(&addresses)) == 64 && again == *me
}

/// Whether these are whole slots, and no more than are used.
pub(crate) fn are_slots(bytes: &[u8], size: usize, most: usize) -> bool {
    bytes.len() % size == 0 && bytes.len() / size <= most
}
