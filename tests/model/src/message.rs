//! Messages: the reader, which gives positions; what the bytes mean, as values; and the bytes of a message.

use crate::limits;
use crate::wire::{fields, fields_from, numbers, put_bytes, put_number, put_single, spans, Field, Span};
use crate::Refusal;

pub const PUT_VALUE: u64 = 0;
pub const GET_VALUE: u64 = 1;
pub const ADD_PROVIDER: u64 = 2;
pub const GET_PROVIDERS: u64 = 3;
pub const FIND_NODE: u64 = 4;
pub const PING: u64 = 5;

/// "A read message is a view: it points into the receive buffer, and each bytes field is that part of it."
#[derive(Clone, Copy, Debug, PartialEq, Eq)]
pub struct View {
    pub kind: u64,
    pub key: Span,
    pub record: Option<RecordView>,
}

#[derive(Clone, Copy, Debug, PartialEq, Eq)]
pub struct RecordView {
    pub key: Span,
    pub value: Span,
}

#[derive(Clone, Debug, PartialEq, Eq)]
pub struct PeerView {
    pub entry: Span,
    pub id: Span,
    pub addresses: Vec<Span>,
    pub connection: u64,
}

/// A message by value. To be written, type and connection may be any number; the writer judges them.
#[derive(Clone, Debug, Default, PartialEq, Eq)]
pub struct Message {
    pub kind: u64,
    pub key: Vec<u8>,
    pub record: Option<Record>,
    pub closer: Vec<Peer>,
    pub providers: Vec<Peer>,
}

#[derive(Clone, Debug, Default, PartialEq, Eq)]
pub struct Record {
    pub key: Vec<u8>,
    pub value: Vec<u8>,
}

#[derive(Clone, Debug, Default, PartialEq, Eq)]
pub struct Peer {
    pub id: Vec<u8>,
    pub addresses: Vec<Vec<u8>>,
    pub connection: u64,
}

/// "A repeated single field: the last one counts"; an absent one is at 0 with length 0.
fn last_span(fields: &[Field], number: u64) -> Span {
    spans(fields, number).last().copied().unwrap_or_default()
}

fn last_number(fields: &[Field], number: u64) -> u64 {
    numbers(fields, number).last().copied().unwrap_or(0)
}

/// The number of the record's field.
const RECORD: u64 = 3;

/// Where the record's occurrences are, in a body whose fields are well formed.
pub fn occurrences(body: &[u8]) -> Vec<Span> {
    fields(body, Span { at: 0, len: body.len() }).map(|outer| spans(&outer, RECORD)).unwrap_or_default()
}

/// "Read the record as though all its occurrences stood one after another. [..] Each occurrence must still be well formed by itself, else 5."
pub fn record_view(body: &[u8], occurrences: &[Span]) -> Option<RecordView> {
    let mut inside = Vec::new();
    for occurrence in occurrences {
        inside.extend(fields(body, *occurrence)?);
    }
    Some(RecordView { key: last_span(&inside, 1), value: last_span(&inside, 2) })
}

/// A peer by the fields inside its entry. "Connection above 3 reads as 0."
fn peer_view(entry: Span, inside: &[Field]) -> PeerView {
    let connection = last_number(inside, 3);
    PeerView { entry, id: last_span(inside, 1), addresses: spans(inside, 2), connection: if connection > 3 { 0 } else { connection } }
}

/// A body with everything in it, by position; none where it isn't well formed. The type isn't judged.
struct Parsed {
    view: View,
    closer: Vec<PeerView>,
    providers: Vec<PeerView>,
}

fn parse(body: &[u8]) -> Option<Parsed> {
    let outer = fields(body, Span { at: 0, len: body.len() })?;
    let all_peers = |number| spans(&outer, number).into_iter().map(|entry| Some(peer_view(entry, &fields(body, entry)?))).collect::<Option<Vec<_>>>();
    let occurrences = spans(&outer, RECORD);
    let merged = record_view(body, &occurrences)?;
    Some(Parsed {
        view: View { kind: last_number(&outer, 1), key: last_span(&outer, 2), record: (!occurrences.is_empty()).then_some(merged) },
        closer: all_peers(8)?,
        providers: all_peers(9)?,
    })
}

fn judged(body: &[u8]) -> Result<Parsed, Refusal> {
    if body.len() > limits::BODY {
        return Err(Refusal::TooLong);
    }
    let parsed = parse(body).ok_or(Refusal::Malformed)?;
    if parsed.view.kind > PING {
        return Err(Refusal::UnknownType);
    }
    Ok(parsed)
}

/// The reader: 4, 5, 6, or the view.
pub fn read(body: &[u8]) -> Result<View, Refusal> {
    judged(body).map(|p| p.view)
}

/// The entries of closerPeers of a body that reads; else none.
pub fn closer_peers(body: &[u8]) -> Vec<PeerView> {
    judged(body).map(|p| p.closer).unwrap_or_default()
}

/// The entries of providerPeers of a body that reads; else none.
pub fn provider_peers(body: &[u8]) -> Vec<PeerView> {
    judged(body).map(|p| p.providers).unwrap_or_default()
}

/// A step of a walk over the peers of a list: the first entry from a position on. A walk from 0 that goes on from each entry's end meets what
/// `closer_peers` or `provider_peers` gives. Nothing is judged: what stands after a field that isn't well formed isn't met.
pub fn next_peer(body: &[u8], providers: bool, from: usize) -> Option<PeerView> {
    let entry = spans(&fields_from(body, from, body.len()), if providers { 9 } else { 8 }).first().copied()?;
    Some(peer_view(entry, &fields_from(body, entry.at, entry.end())))
}

/// A step of a walk over the addresses of the entry from `start` up to `end`: the first one from a position on that isn't before the start.
pub fn next_address(body: &[u8], start: usize, end: usize, from: usize) -> Option<Span> {
    spans(&fields_from(body, start.max(from), end.min(body.len())), 2).first().copied()
}

fn peer_at(body: &[u8], view: &PeerView) -> Peer {
    Peer { id: view.id.of(body).to_vec(), addresses: view.addresses.iter().map(|a| a.of(body).to_vec()).collect(), connection: view.connection }
}

/// What a body means: 4, 5, 6, or the message.
pub fn decode(body: &[u8]) -> Result<Message, Refusal> {
    let parsed = judged(body)?;
    Ok(Message {
        kind: parsed.view.kind,
        key: parsed.view.key.of(body).to_vec(),
        record: parsed.view.record.map(|r| Record { key: r.key.of(body).to_vec(), value: r.value.of(body).to_vec() }),
        closer: parsed.closer.iter().map(|p| peer_at(body, p)).collect(),
        providers: parsed.providers.iter().map(|p| peer_at(body, p)).collect(),
    })
}

pub fn encode_record(record: &Record) -> Vec<u8> {
    let mut out = Vec::new();
    put_single(&mut out, 1, &record.key);
    put_single(&mut out, 2, &record.value);
    out
}

pub fn encode_peer(peer: &Peer) -> Vec<u8> {
    let mut out = Vec::new();
    put_single(&mut out, 1, &peer.id);
    for address in &peer.addresses {
        put_bytes(&mut out, 2, address);
    }
    put_number(&mut out, 3, peer.connection);
    out
}

/// The body of a message: "fields by ascending number, minimal varints, type and connection always"; no limit is judged here.
pub fn encode(message: &Message) -> Vec<u8> {
    let mut out = Vec::new();
    put_number(&mut out, 1, message.kind);
    put_single(&mut out, 2, &message.key);
    if let Some(record) = &message.record {
        put_bytes(&mut out, 3, &encode_record(record));
    }
    for peer in &message.closer {
        put_bytes(&mut out, 8, &encode_peer(peer));
    }
    for peer in &message.providers {
        put_bytes(&mut out, 9, &encode_peer(peer));
    }
    out
}
