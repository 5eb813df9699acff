//! Two benches agree: a bench is offered records in an order of its own, and holds what any other holds that is offered the same. What it holds from before is one
//! of these records too.

use crate::tally::Around;
use starterbell::message::{Draft, Record};
use starterbell::{Connection, Node, Peer, Refusal};

/// Offers a bench all of these records, and half as many of them again. Every second one is typed at the bench, and the others are sent by other benches.
pub fn offer_all(node: &mut Node, benches: &[Vec<u8>], records: &[Record], around: &mut Around) {
    let mut offers = records.to_vec();
    offers.extend((0..records.len() / 2).map(|_| records[around.rng.below(records.len())]));
    around.rng.shuffle(&mut offers);
    let others: Vec<&[u8]> = benches.iter().map(Vec::as_slice).filter(|id| *id != node.id()).collect();
    let mut open = None;
    for (n, offer) in offers.iter().enumerate() {
        let told = if n % 2 == 0 { node.put(offer.key, offer.value) } else { send(node, &mut open, &others, offer, around) };
        around.tally.offers += 1;
        around.tally.late += u64::from(told == Err(Refusal::Outranked));
        around.told(told);
    }
}

/// Sends a record in pieces of random size, on the connection that is open. A record that is refused shuts it, and the next one comes from another bench.
fn send(node: &mut Node, open: &mut Option<Connection>, others: &[&[u8]], record: &Record, around: &mut Around) -> Result<(), Refusal> {
    let mut connection = match open.take() {
        Some(connection) => connection,
        // as a client, which never becomes a contact
        None => node.accept(Peer::client(others[around.rng.below(others.len())], &[]))?,
    };
    let message = Draft::put_value(record.key, record.value).to_vec()?;
    let mut rest = &message[..];
    while !rest.is_empty() {
        let (piece, after) = rest.split_at(around.rng.piece().min(rest.len()));
        node.feed(&mut connection, piece, |_, _| {})?;
        rest = after;
    }
    *open = Some(connection);
    Ok(())
}

/// The records that a bench holds, sorted.
pub fn held(node: &Node) -> Vec<(&[u8], &[u8])> {
    let mut held: Vec<_> = node.records().map(|record| (record.key, record.value)).collect();
    held.sort_unstable();
    held
}
