//! The program: standard input as one client's connection. Its output is the replies and nothing else.

use crate::limits;
use crate::node::{end, open, receive, Answer, Lent, Side};
use crate::peer::{Me, Mode};

/// What the run writes, and whether it ended well: a refusal, or an end inside a message, ends it otherwise.
/// The input is read in pieces of a size; the lent memory is cleared, with these numbers of slots.
pub fn run(our_id: &[u8], client: &[u8], input: &[u8], piece: usize, contact_slots: usize, record_slots: usize) -> (Vec<u8>, bool) {
    let (me, refused_start) = Me::start(our_id, &[]);
    let (mut conn, refused_open) = open(&me, client, Mode::Client, &[], Side::Serving);
    let mut written = Vec::new();
    if refused_start.or(refused_open).is_some() {
        return (written, false);
    }
    let (mut contacts, mut records) = (vec![0; contact_slots * limits::CONTACT_SLOT], vec![0; record_slots * limits::RECORD_SLOT]);
    let (mut buffer, mut reply) = (vec![0; limits::BODY], vec![0; limits::REPLY]);
    for chunk in input.chunks(piece.max(1)) {
        let mut rest = chunk;
        while !rest.is_empty() {
            let mut lent = Lent { contacts: &mut contacts, records: &mut records, buffer: &mut buffer, reply: &mut reply };
            let got = receive(&me, &mut conn, &mut lent, rest);
            rest = &rest[got.taken..];
            match got.answer {
                Answer::Replied { length, .. } => written.extend(&reply[..length]),
                Answer::Refused(_) => return (written, false),
                Answer::More | Answer::Given { .. } => {}
            }
        }
    }
    let ended = end(&me, &mut conn).is_ok();
    (written, ended)
}
