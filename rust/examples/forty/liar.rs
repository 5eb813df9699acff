//! Benches that lie: what they answer, and what they send unasked.

use crate::net::multiaddr;
use crate::rng::Rng;
use starterbell::message::{Draft, Kind, Message, Named, Record};
use std::collections::BTreeMap;

/// How a bench lies when it is asked.
#[derive(Clone, Copy, PartialEq)]
pub enum Trick {
    /// Names peers that there are not, and those that are farthest.
    MadeUp,
    /// Sends broken bytes.
    Broken,
    /// Sends recipes that don't check, that are cut short, or that are of another key.
    BadRecipes,
    /// Sends the first version of a recipe, whatever it was told since.
    OldRecipes,
    /// Sends more messages than it was asked for.
    Chatter,
}

impl Trick {
    pub const ALL: [Trick; 5] = [Trick::MadeUp, Trick::Broken, Trick::BadRecipes, Trick::OldRecipes, Trick::Chatter];
}

pub struct Liar {
    pub trick: Trick,
    /// The first value that it was told for each key.
    first: BTreeMap<Vec<u8>, Vec<u8>>,
}

/// A message with its length. What a liar makes up is within the writer's limits; where it isn't, it sends nothing.
fn written(draft: Draft) -> Vec<u8> {
    draft.to_vec().unwrap_or_default()
}

/// The body of a message that the box wrote.
fn body(message: &[u8]) -> &[u8] {
    let prefix = message.iter().take_while(|byte| **byte >= 0x80).count() + 1;
    &message[prefix.min(message.len())..]
}

impl Liar {
    pub fn new(trick: Trick) -> Liar {
        Liar { trick, first: BTreeMap::new() }
    }

    /// What is sent in place of an honest reply.
    pub fn lie(&mut self, reply: &[u8], rng: &mut Rng) -> Vec<u8> {
        let Ok(honest) = Message::read(body(reply)) else { return reply.to_vec() };
        if let (Kind::PutValue, Some(record)) = (honest.kind(), honest.record()) {
            self.first.entry(record.key.to_vec()).or_insert_with(|| record.value.to_vec());
        }
        match (self.trick, honest.kind()) {
            (Trick::MadeUp, Kind::FindNode | Kind::GetValue) => made_up(honest.kind(), Some(&honest), rng),
            (Trick::Broken, _) => broken(rng),
            (Trick::BadRecipes, Kind::GetValue) => bad_recipe(&honest, rng),
            (Trick::OldRecipes, Kind::GetValue) => self.old_recipe(&honest),
            (Trick::Chatter, _) => [reply, &written(Draft::ping()), reply, &made_up(Kind::FindNode, None, rng)].concat(),
            _ => reply.to_vec(),
        }
    }

    fn old_recipe(&self, honest: &Message) -> Vec<u8> {
        let record = honest.record().and_then(|record| Some(Record { key: record.key, value: self.first.get(record.key)? }));
        written(Draft { record, ..Draft::new(Kind::GetValue) })
    }

    /// What is sent to a bench that asked for nothing.
    pub fn rubbish(&self, rng: &mut Rng) -> Vec<u8> {
        let told = self.first.iter().next();
        match rng.below(10) {
            0 => broken(rng),
            1 => vec![2, 8, 6],
            2 => written(Draft::new(Kind::AddProvider)),
            3 => made_up(Kind::FindNode, None, rng),
            4 => written(Draft::put_value(b"/wind/rubbish", &rng.bytes::<40>())),
            5 => written(Draft::put_value(b"/elsewhere/rubbish", &rng.bytes::<40>())),
            6 => written(Draft::find_node(b"half of a message"))[..9].to_vec(),
            7 => written(Draft::find_node(b"")),
            8 => written(Draft::put_value(told.map_or(b"/wind/rubbish", |(key, _)| key), HIGHEST[rng.below(HIGHEST.len())])),
            _ => told.map_or(vec![0x80], |(key, value)| written(Draft::put_value(key, value))),
        }
    }
}

/// A reply that names made-up peers: some with nobody at their address, some without one, one with no id. Then the farthest that the honest reply names.
fn made_up(kind: Kind, honest: Option<&Message>, rng: &mut Rng) -> Vec<u8> {
    let ids: Vec<[u8; 38]> = (0..12).map(|_| rng.bytes()).collect();
    // nobody can listen on port 0
    let dead = multiaddr([127, 0, 0, 1], 0);
    let bytes = rng.bytes::<128>();
    let lists: [&[&[u8]]; 3] = [&[&dead], &[], &[&bytes, &bytes, &bytes, &bytes]];
    let mut peers: Vec<Named> = ids.iter().zip(lists.iter().cycle()).map(|(id, addresses)| Named { id, addresses, ..Named::default() }).collect();
    peers[7].id = &[];
    let far: Vec<_> = honest.map(|honest| honest.closer_peers().collect()).unwrap_or_default();
    peers.extend(far.iter().rev().map(|entry| Named { id: entry.id(), ..Named::default() }));
    written(Draft { closer_peers: &peers, ..Draft::new(kind) })
}

/// Bytes that are no message.
fn broken(rng: &mut Rng) -> Vec<u8> {
    match rng.below(5) {
        0 => vec![0x80, 0],
        1 => vec![0x81, 0x80, 1],
        2 => vec![3, 0x1b, 0, 0],
        3 => vec![2, 8, 9],
        _ => rng.bytes::<200>().to_vec(),
    }
}

/// Each would outrank every other recipe, but none is one: in the first the trims leap from 0 to 9,000; the others are for two spools, and in one a byte isn't zero that
/// has to be, in the other the wrap would start inside the trailer, 23 bytes from the end.
const HIGHEST: [&[u8]; 3] = [
    &[0, 0, 1, 0xd0, 0x8c, 1, 22, 0, 0, 0, 2, 0, 1, 0, 255, 255, 255, 255, 255, 255, 255, 255],
    &[0, 0, 0, 1, 28, 0, 0, 0, 1, 0, 1, 0, 26, 0, 0, 0, 1, 0, 2, 0, 255, 255, 255, 255, 255, 255, 255, 255],
    &[0, 0, 0, 1, 28, 0, 0, 0, 1, 0, 0, 0, 23, 0, 0, 0, 1, 0, 2, 0, 255, 255, 255, 255, 255, 255, 255, 255],
];

/// A record whose value doesn't check, of which the start alone is sent, or whose key isn't the one that was asked for.
fn bad_recipe(honest: &Message, rng: &mut Rng) -> Vec<u8> {
    let noise = rng.bytes::<64>();
    let start = honest.record().map_or(&noise[..], |record| &record.value[..record.value.len() * 2 / 3]);
    let value = match rng.below(HIGHEST.len() + 2) {
        0 => &noise,
        1 => start,
        n => HIGHEST[n - 2],
    };
    let key = honest.record().map_or(&b"/wind/another"[..], |record| record.key);
    written(Draft { record: Some(Record { key, value }), ..Draft::new(Kind::GetValue) })
}
