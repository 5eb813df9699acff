//! A connection's framing, byte by byte.

use crate::limits;
use crate::Refusal;

/// What a connection has read of its message so far. Prefix bytes together with a begun body can't be said.
#[derive(Clone, Debug, PartialEq, Eq)]
pub enum Framing {
    /// The prefix bytes so far.
    Prefix(Vec<u8>),
    /// The body's length, and how much of it stands in the receive buffer.
    Body {
        length: usize,
        have: usize,
    },
    Shut,
}

/// What one byte, or one call, came to.
#[derive(Clone, Copy, Debug, PartialEq, Eq)]
pub enum Event {
    More,
    /// A whole message of this length stands at the receive buffer's start.
    Message(usize),
    Refused(Refusal),
}

impl Framing {
    pub fn fresh() -> Framing {
        Framing::Prefix(vec![])
    }

    /// "0 to 2 prefix bytes with set top bits, and any begun body short of its length, at most 16,384". A shut one has no form.
    pub fn in_form(&self) -> bool {
        match self {
            Framing::Prefix(bytes) => bytes.len() <= 2 && bytes.iter().all(|b| *b >= 0x80),
            Framing::Body { length, have } => have < length && *length <= limits::BODY,
            Framing::Shut => true,
        }
    }
}

/// A prefix byte. "A set top bit in the third prefix byte gives 4. At the closing prefix byte: a zero byte that isn't the first gives 3;
/// a value over 16,384 gives 4."
fn prefix_byte(mut bytes: Vec<u8>, byte: u8) -> (Framing, Event) {
    bytes.push(byte);
    if byte >= 0x80 {
        return if bytes.len() == 3 { (Framing::Shut, Event::Refused(Refusal::TooLong)) } else { (Framing::Prefix(bytes), Event::More) };
    }
    let length = bytes.iter().rev().fold(0, |sum, b| sum << 7 | (*b & 0x7f) as usize);
    if byte == 0 && bytes.len() > 1 {
        (Framing::Shut, Event::Refused(Refusal::PrefixNotMinimal))
    } else if length > limits::BODY {
        (Framing::Shut, Event::Refused(Refusal::TooLong))
    } else if length == 0 {
        (Framing::fresh(), Event::Message(0))
    } else {
        (Framing::Body { length, have: 0 }, Event::More)
    }
}

fn body_byte(length: usize, have: usize, buffer: &mut [u8], byte: u8) -> (Framing, Event) {
    buffer[have] = byte;
    if have + 1 == length {
        (Framing::fresh(), Event::Message(length))
    } else {
        (Framing::Body { length, have: have + 1 }, Event::More)
    }
}

/// Takes bytes up to the first event: the framing then, how many bytes were taken, and the event. For a framing in form and a buffer of 16,384.
pub fn take(framing: Framing, buffer: &mut [u8], piece: &[u8]) -> (Framing, usize, Event) {
    let mut now = framing;
    for (i, byte) in piece.iter().enumerate() {
        let (next, event) = match now {
            Framing::Prefix(bytes) => prefix_byte(bytes, *byte),
            Framing::Body { length, have } => body_byte(length, have, buffer, *byte),
            Framing::Shut => (Framing::Shut, Event::Refused(Refusal::Shut)),
        };
        if event != Event::More {
            return (next, i + 1, event);
        }
        now = next;
    }
    (now, piece.len(), Event::More)
}

/// The framing as an entry point of its own: 0, 1, 2, then the bytes.
pub fn receive(framing: &mut Framing, buffer: &mut [u8], piece: &[u8]) -> (usize, Event) {
    if !framing.in_form() {
        return (0, Event::Refused(Refusal::OutOfForm));
    }
    if buffer.len() < limits::BODY {
        return (0, Event::Refused(Refusal::SmallBuffer));
    }
    if *framing == Framing::Shut {
        return (0, Event::Refused(Refusal::Shut));
    }
    let (next, taken, event) = take(framing.clone(), buffer, piece);
    *framing = next;
    (taken, event)
}

/// An end: 0, 2, 19 inside a prefix or body, else clean. 19 and a clean end shut.
pub fn end(framing: &mut Framing) -> Result<(), Refusal> {
    if !framing.in_form() {
        return Err(Refusal::OutOfForm);
    }
    match std::mem::replace(framing, Framing::Shut) {
        Framing::Shut => Err(Refusal::Shut),
        Framing::Prefix(bytes) if bytes.is_empty() => Ok(()),
        _ => Err(Refusal::EndedInside),
    }
}
