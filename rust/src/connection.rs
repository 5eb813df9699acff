//! Connections, and what comes of their bytes.

use crate::message::Message;
use crate::node::Seen;
use crate::peer::{Contact, Mode};
use crate::raw;
use crate::refusal::Refusal;
use crate::show::{Bytes, Length};
use alloc::boxed::Box;
use alloc::vec;
use core::fmt;

/// What we do on a connection.
#[derive(Clone, Copy, Debug, PartialEq, Eq, Hash)]
pub enum Side {
    /// The peer asks: each message is a request, and is answered.
    Serving,
    /// We ask: each message is for one of our lookups.
    Asking,
}

/// A connection: the state of its bytes, and its receive buffer. [`Node::accept`](crate::Node::accept) and [`Node::connect`](crate::Node::connect) give one.
///
/// Hand it to the box that opened it.
#[derive(Clone)]
pub struct Connection {
    pub(crate) state: Box<[u8]>,
    pub(crate) buffer: Box<[u8]>,
}

impl Connection {
    /// Memory for a connection, not opened yet.
    pub(crate) fn room() -> Connection {
        Connection { state: vec![0; raw::CONNECTION].into(), buffer: vec![0; raw::BUFFER].into() }
    }

    /// The peer at its other end.
    pub fn peer(&self) -> Contact<'_> {
        Contact::at(&self.state)
    }

    /// What that peer does.
    pub fn mode(&self) -> Mode {
        if self.state[616] == 0 {
            Mode::Client
        } else {
            Mode::Server
        }
    }

    /// What we do on it.
    pub fn side(&self) -> Side {
        if self.state[617] == 0 {
            Side::Serving
        } else {
            Side::Asking
        }
    }

    /// Whether it takes no more bytes: it was ended, or refused a message.
    pub fn is_shut(&self) -> bool {
        self.state[618] == 0
    }

    /// Two bytes as a number, the lower first.
    fn pair(&self, at: usize) -> usize {
        usize::from(u16::from_le_bytes([self.state[at], self.state[at + 1]]))
    }
}

impl fmt::Debug for Connection {
    /// Says who is at its other end, and where in its bytes it stands.
    fn fmt(&self, f: &mut fmt::Formatter<'_>) -> fmt::Result {
        let mut shown = f.debug_struct("Connection");
        shown.field("peer", &Bytes(self.peer().id())).field("mode", &self.mode()).field("side", &self.side());
        // a framing is laid out as crates/flat says (specs/Flat)
        match (self.state[618], self.state[619]) {
            (0, _) => shown.field("at", &format_args!("shut")),
            (1, 0) => shown.field("at", &format_args!("between messages")),
            (1, _) => shown.field("at", &format_args!("inside a length")),
            _ => shown.field("at", &format_args!("{} of {} bytes of a message", self.pair(624), self.pair(622))),
        };
        shown.finish()
    }
}

/// What came of a piece, up to its first event.
#[must_use = "it says how many bytes were taken, and what to send"]
#[derive(Clone, Debug)]
pub struct Received<'n, 'c> {
    /// How many bytes were taken. Hand in the rest of the piece again.
    pub taken: usize,
    /// What happened.
    pub event: Event<'n, 'c>,
    /// What came of the sender, which is seen with each request that is answered: as [`Node::seen`](crate::Node::seen) gives it. None where it wasn't seen.
    pub seen: Option<Result<Seen<'n>, Refusal>>,
}

/// What happened on a connection.
#[derive(Clone)]
pub enum Event<'n, 'c> {
    /// Nothing yet: the whole piece was taken, and more bytes are wanted.
    More,
    /// A request was answered: send these bytes.
    Reply(&'n [u8]),
    /// A message came on a connection on which we ask. It lies in the connection's receive buffer until that takes another byte, so this isn't compiled:
    ///
    /// ```compile_fail,E0499
    /// # use starterbell::{Connection, Event, Node};
    /// fn keeps(node: &mut Node, connection: &mut Connection, piece: &[u8]) {
    ///     let Event::Heard(message) = node.receive(connection, piece).event else { return };
    ///     let _ = node.receive(connection, piece);
    ///     println!("{:?}", message.key());
    /// }
    /// ```
    Heard(Message<'c>),
    /// A message was refused, and the connection is shut; or it was shut before.
    Refused(Refusal),
}

impl fmt::Debug for Event<'_, '_> {
    fn fmt(&self, f: &mut fmt::Formatter<'_>) -> fmt::Result {
        match self {
            Event::More => f.write_str("More"),
            Event::Reply(reply) => f.debug_tuple("Reply").field(&Length(reply.len())).finish(),
            Event::Heard(message) => f.debug_tuple("Heard").field(message).finish(),
            Event::Refused(refusal) => f.debug_tuple("Refused").field(refusal).finish(),
        }
    }
}
