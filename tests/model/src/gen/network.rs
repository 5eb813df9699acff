//! Peers that answer lookups.

use super::{id, odd_id, Rng};
use crate::limits;
use crate::message::{Message, Peer, FIND_NODE};
use crate::place::{distance, place_of, Place};

/// Peers that know some of each other and answer lookups.
#[derive(Clone, Debug)]
pub struct Network {
    pub ids: Vec<Vec<u8>>,
    places: Vec<Place>,
    known: Vec<Vec<usize>>,
}

impl Network {
    pub fn new(rng: &mut Rng, size: usize, acquaintances: usize) -> Network {
        let ids: Vec<Vec<u8>> = (0..size).map(|_| id(rng)).collect();
        let places = ids.iter().map(|i| place_of(i)).collect();
        let known = (0..size).map(|_| (0..acquaintances).map(|_| rng.below(size)).collect()).collect();
        Network { ids, places, known }
    }

    /// Some peer that fits, by its id and place.
    pub fn some(&self, rng: &mut Rng, fits: impl Fn(&Vec<u8>, &Place) -> bool) -> Option<Vec<u8>> {
        let first = rng.below(self.ids.len());
        let mut all = (first..self.ids.len()).chain(0..first);
        all.find(|i| fits(&self.ids[*i], &self.places[*i])).map(|i| self.ids[i].clone())
    }

    /// What a peer answers to FIND_NODE: the nearest it knows, and now and then more entries than it should, with bad ids among them.
    /// One in eight names peers that nobody knows.
    pub fn answer(&self, rng: &mut Rng, sender: &[u8], key: &[u8], ours: &[u8]) -> Message {
        let target = place_of(key);
        let i = self.ids.iter().position(|id| id == sender).unwrap_or(0);
        let mut near = self.known[i].clone();
        near.sort_by_key(|j| distance(&self.places[*j], &target));
        let mut ids: Vec<Vec<u8>> = near.into_iter().map(|j| self.ids[j].clone()).take(limits::NEAREST).collect();
        if rng.one_in(8) {
            ids = (0..limits::HEARD + 1).map(|_| id(rng)).collect();
        }
        for _ in 0..(if rng.one_in(3) { rng.below(5) } else { 0 }) {
            let extra = match rng.below(3) {
                0 => odd_id(rng),
                1 => ours.to_vec(),
                _ => id(rng),
            };
            ids.insert(rng.below(ids.len() + 1), extra);
        }
        let peer = |id: Vec<u8>| Peer { id, addresses: vec![], connection: 1 };
        Message { kind: FIND_NODE, closer: ids.into_iter().map(peer).collect(), ..Message::default() }
    }
}
