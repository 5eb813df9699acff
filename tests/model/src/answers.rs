//! The replies to requests, and the sighting afterwards.

use crate::contacts::{self, Seen};
use crate::limits;
use crate::message::{self, Message, Peer, Record, ADD_PROVIDER, FIND_NODE, GET_PROVIDERS, GET_VALUE, PUT_VALUE};
use crate::peer::{first_usable, Me, Mode};
use crate::place::{place_of, Place};
use crate::records;
use crate::writer;
use crate::Refusal;

/// Who asks: as the connection was opened.
#[derive(Clone, Debug, PartialEq, Eq)]
pub struct Sender {
    pub id: Vec<u8>,
    pub place: Place,
    pub mode: Mode,
    pub addresses: Vec<Vec<u8>>,
}

/// An entry of closerPeers. Of a contact in form all addresses are usable. "Its first four usable addresses come from the box's start .. or the open."
fn peer(id: &[u8], addresses: &[Vec<u8>]) -> Peer {
    Peer { id: id.to_vec(), addresses: first_usable(addresses), connection: 0 }
}

/// "FIND_NODE, GET_VALUE: key of 1 to 128 bytes, else 8. closerPeers are the 20 nearest contacts" that aren't doubtful, "connection 0."
fn nearest(table: &[u8], me: &Me, key: &[u8]) -> Result<Vec<contacts::Contact>, Refusal> {
    Ok(contacts::nearest(table, me, key)?.into_iter().map(|i| contacts::contact(table, i)).collect())
}

/// "FIND_NODE adds one last entry if the target place is ours or the requester's and isn't there yet." A doubtful requester isn't there.
fn find_node(me: &Me, sender: &Sender, key: &[u8], table: &[u8]) -> Result<Message, Refusal> {
    let near = nearest(table, me, key)?;
    let mut closer: Vec<Peer> = near.iter().map(|c| peer(&c.id, &c.addresses)).collect();
    let target = place_of(key);
    let there = near.iter().any(|c| c.place == target);
    if !there && target == me.place {
        closer.push(peer(&me.id, &me.addresses));
    } else if !there && target == sender.place {
        closer.push(peer(&sender.id, &sender.addresses));
    }
    Ok(Message { kind: FIND_NODE, closer, ..Message::default() })
}

/// "GET_VALUE adds the record, if held."
fn get_value(me: &Me, key: &[u8], table: &[u8], store: &[u8]) -> Result<Message, Refusal> {
    let closer = nearest(table, me, key)?.iter().map(|c| peer(&c.id, &c.addresses)).collect();
    let record = records::find(store, key)?.map(|found| Record { key: key.to_vec(), value: found.value });
    Ok(Message { kind: GET_VALUE, record, closer, ..Message::default() })
}

/// "The record's key equals the message key; else 8. Echo: type, key, record's key and value."
fn put_value(request: &Message, store: &mut [u8]) -> Result<Message, Refusal> {
    let record = request.record.clone().filter(|r| r.key == request.key).ok_or(Refusal::BreaksRules)?;
    records::put(store, &record.key, &record.value)?;
    Ok(Message { kind: PUT_VALUE, key: request.key.clone(), record: Some(record), ..Message::default() })
}

/// The reply to a body, with its length before it, or 5 to 11. A put is stored. For memory in form.
pub fn reply(me: &Me, sender: &Sender, body: &[u8], table: &[u8], store: &mut [u8]) -> Result<Vec<u8>, Refusal> {
    let request = message::decode(body)?;
    let says = match request.kind {
        PUT_VALUE => put_value(&request, store)?,
        GET_VALUE => get_value(me, &request.key, table, store)?,
        ADD_PROVIDER | GET_PROVIDERS => return Err(Refusal::Providers),
        FIND_NODE => find_node(me, sender, &request.key, table)?,
        kind => Message { kind, ..Message::default() },
    };
    Ok(writer::framed(&writer::body_of(&says).expect("within the limits")))
}

/// "The reply is worked out first; then a server-mode sender is seen (a client isn't; no 18), and that outcome stands beside the reply."
/// A sighting takes the first four usable addresses.
/// How many bytes of the reply buffer are the reply, and the sighting; or 5 to 11, and nothing changes.
pub fn answer(me: &Me, sender: &Sender, body: &[u8], table: &mut [u8], store: &mut [u8], out: &mut [u8]) -> Result<(usize, Option<Seen>), Refusal> {
    let whole = reply(me, sender, body, table, store)?;
    debug_assert!(whole.len() <= limits::REPLY);
    out[..whole.len()].copy_from_slice(&whole);
    if sender.mode == Mode::Client {
        return Ok((whole.len(), None));
    }
    let all = contacts::entries(table, &me.place)?;
    let sighting = contacts::seen_place(table, &all, &me.place, &sender.id, &sender.place, &first_usable(&sender.addresses));
    Ok((whole.len(), Some(sighting)))
}
