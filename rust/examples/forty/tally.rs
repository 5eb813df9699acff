//! What happened, counted.

use crate::net::{Link, Net};
use crate::rng::Rng;
use starterbell::Refusal;
use std::collections::{BTreeMap, BTreeSet};

#[derive(Default)]
pub struct Tally {
    pub messages: u64,
    /// By number, of all boxes.
    pub refusals: [u64; Refusal::ALL.len()],
    pub lookups: u64,
    pub complete: u64,
    pub cut_short: u64,
    /// Requests of lookups: all, and the most of one.
    pub requests: u64,
    pub most_requests: u64,
    /// Peers that failed to answer in time, or at all.
    pub failures: u64,
    /// Requests to benches that never answer.
    pub dead: u64,
    /// Messages that nobody had asked for.
    pub unasked: u64,
    /// Recipes that honest benches got and threw away, by what was wrong: the rule that they break, or that they are of another key.
    pub broken: BTreeMap<String, u64>,
    /// Recipes that honest benches got and that another one outranked.
    pub outranked: u64,
    pub probes: u64,
    pub swaps: u64,
    pub stored: u64,
    /// Offers to benches in the end: all, and those that came when a newer version was held.
    pub offers: u64,
    pub late: u64,
}

impl Tally {
    pub fn ended(&self) -> u64 {
        self.complete + self.cut_short
    }
}

/// What a bench has around it.
pub struct Around<'a> {
    pub net: &'a mut dyn Net,
    pub rng: &'a mut Rng,
    pub tally: &'a mut Tally,
    /// The ids of the benches that never answer. No bench looks at it: it is for counting.
    pub silent: &'a BTreeSet<Vec<u8>>,
}

impl Around<'_> {
    pub fn send(&mut self, link: Link, message: &[u8]) {
        self.tally.messages += 1;
        self.net.send(link, message);
    }

    /// Sends a request.
    pub fn ask(&mut self, link: Link, id: &[u8], message: &[u8]) {
        self.tally.dead += u64::from(self.silent.contains(id));
        self.send(link, message);
    }

    pub fn refused(&mut self, refusal: Refusal) {
        self.tally.refusals[refusal.number() as usize] += 1;
    }

    /// Counts a refusal, if it is one.
    pub fn told<T>(&mut self, result: Result<T, Refusal>) -> Option<T> {
        result.map_err(|refusal| self.refused(refusal)).ok()
    }
}
