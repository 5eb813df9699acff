//! The box's entry points on a connection: open, receive, end. Those on contacts, records and lookups stand in their modules.

use crate::answers::{self, Sender};
use crate::contacts::{self, Seen};
use crate::limits;
use crate::message::{self, View};
use crate::peer::{id_fits, usable};
pub use crate::peer::{Me, Mode};
use crate::place::Place;
use crate::records;
use crate::stream::{self, Event, Framing};
use crate::Refusal;

#[derive(Clone, Copy, Debug, PartialEq, Eq)]
pub enum Side {
    /// Each message is a request.
    Serving,
    /// Each message goes to the host for its lookup.
    Asking,
}

/// A connection by value.
#[derive(Clone, Debug, PartialEq, Eq)]
pub struct Conn {
    pub peer: Sender,
    pub side: Side,
    pub framing: Framing,
}

/// The memory that a receive is lent.
pub struct Lent<'a> {
    pub contacts: &'a mut [u8],
    pub records: &'a mut [u8],
    /// The connection's receive buffer.
    pub buffer: &'a mut [u8],
    pub reply: &'a mut [u8],
}

#[derive(Clone, Debug, PartialEq, Eq)]
pub enum Answer {
    More,
    /// A request was answered: the reply is this many bytes of the reply buffer; a server was seen.
    Replied {
        length: usize,
        sighting: Option<Seen>,
    },
    /// A message on the asking side, for the host's lookup.
    Given {
        length: usize,
        view: View,
    },
    Refused(Refusal),
}

#[derive(Clone, Debug, PartialEq, Eq)]
pub struct Received {
    pub taken: usize,
    pub answer: Answer,
}

impl Conn {
    /// "Open connections a peer 12 allows", by id and place, and the framing's form. The place isn't hashed again. A shut connection has no form.
    pub fn in_form(&self, ours: &Place) -> bool {
        self.framing == Framing::Shut || (id_fits(&self.peer.id) && self.peer.place != *ours && self.framing.in_form())
    }
}

/// An open gives 12 only; the connection is then shut, with no id, a place of zeros and no addresses.
pub fn open(me: &Me, id: &[u8], mode: Mode, addresses: &[u8], side: Side) -> (Conn, Option<Refusal>) {
    match me.place_of(id) {
        Ok(place) => {
            let peer = Sender { id: id.to_vec(), place, mode, addresses: usable(addresses) };
            (Conn { peer, side, framing: Framing::fresh() }, None)
        }
        Err(refusal) => {
            let nobody = Sender { id: vec![], place: [0; 32], mode, addresses: vec![] };
            (Conn { peer: nobody, side, framing: Framing::Shut }, Some(refusal))
        }
    }
}

/// 0 to 2, in this order, on either side; then 12 for our own id.
fn refused_at_once(me: &Me, conn: &Conn, lent: &Lent) -> Result<(), Refusal> {
    let in_form = contacts::in_form(lent.contacts, &me.place) && records::in_form(lent.records) && conn.in_form(&me.place);
    if !in_form {
        return Err(Refusal::OutOfForm);
    }
    if lent.buffer.len() < limits::BODY || lent.reply.len() < limits::REPLY {
        return Err(Refusal::SmallBuffer);
    }
    if conn.framing == Framing::Shut {
        return Err(Refusal::Shut);
    }
    me.stands()
}

/// What a whole message comes to: 5 to 11 on the serving side, 5 and 6 on the asking side.
fn completed(me: &Me, conn: &Conn, lent: &mut Lent, length: usize) -> Result<Answer, Refusal> {
    let body = &lent.buffer[..length];
    match conn.side {
        Side::Asking => message::read(body).map(|view| Answer::Given { length, view }),
        Side::Serving => {
            answers::answer(me, &conn.peer, body, lent.contacts, lent.records, lent.reply).map(|(length, sighting)| Answer::Replied { length, sighting })
        }
    }
}

/// "One call takes bytes up to the first event, returns the number taken, and answers message, refusal or more."
pub fn receive(me: &Me, conn: &mut Conn, lent: &mut Lent, piece: &[u8]) -> Received {
    if let Err(refusal) = refused_at_once(me, conn, lent) {
        return Received { taken: 0, answer: Answer::Refused(refusal) };
    }
    let (framing, taken, event) = stream::take(conn.framing.clone(), lent.buffer, piece);
    conn.framing = framing;
    let answer = match event {
        Event::More => Ok(Answer::More),
        Event::Refused(refusal) => Err(refusal),
        Event::Message(length) => completed(me, conn, lent, length),
    };
    let answer = answer.unwrap_or_else(|refusal| {
        conn.framing = Framing::Shut;
        Answer::Refused(refusal)
    });
    Received { taken, answer }
}

/// An end looks at our place and the connection alone: 0, 2, 19, else ended. It shuts.
pub fn end(me: &Me, conn: &mut Conn) -> Result<(), Refusal> {
    if !conn.in_form(&me.place) {
        return Err(Refusal::OutOfForm);
    }
    stream::end(&mut conn.framing)
}
