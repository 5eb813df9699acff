//! A net in memory: the same seed gives the same pieces in the same order.

use crate::net::{ip_and_port, multiaddr, Link, Net, News, Traffic, What};
use crate::rng::Rng;
use std::collections::{BTreeMap, VecDeque};

const PORT: u16 = 4001;

struct End {
    bench: usize,
    other: Link,
    /// Bytes on their way to this end.
    coming: VecDeque<u8>,
    /// The bench doesn't know of this end yet.
    new: bool,
}

pub struct Memory {
    benches: usize,
    ends: BTreeMap<Link, End>,
    last: Link,
    now: u64,
    rng: Rng,
    traffic: Traffic,
}

impl Memory {
    pub fn new(benches: usize, seed: u64) -> Memory {
        Memory { benches, ends: BTreeMap::new(), last: 0, now: 0, rng: Rng(seed), traffic: Traffic::default() }
    }

    fn add(&mut self, bench: usize, other: Link, new: bool) {
        self.last += 1;
        self.ends.insert(self.last, End { bench, other, coming: VecDeque::new(), new });
    }

    /// What one end gets this time: often a piece, sometimes nothing.
    fn arrives(&mut self, link: Link) -> Option<What> {
        let open = self.ends.contains_key(&self.ends[&link].other);
        let end = self.ends.get_mut(&link)?;
        if std::mem::take(&mut end.new) {
            return Some(What::Opened);
        }
        if end.coming.is_empty() {
            return (!open).then_some(What::Closed);
        }
        if self.rng.below(4) == 0 {
            return None;
        }
        let size = self.rng.piece().min(end.coming.len());
        self.traffic.pieces += 1;
        self.traffic.bytes += size as u64;
        Some(What::Bytes(end.coming.drain(..size).collect()))
    }
}

impl Net for Memory {
    fn address(&self, bench: usize) -> Vec<u8> {
        multiaddr([10, 40, (bench >> 8) as u8, bench as u8], PORT)
    }

    fn dial(&mut self, bench: usize, address: &[u8]) -> Option<Link> {
        let ([10, 40, high, low], PORT) = ip_and_port(address)? else { return None };
        let to = usize::from(high) << 8 | usize::from(low);
        if to >= self.benches {
            return None;
        }
        let (ours, theirs) = (self.last + 1, self.last + 2);
        self.add(bench, theirs, false);
        self.add(to, ours, true);
        self.traffic.connections += 1;
        Some(ours)
    }

    fn send(&mut self, link: Link, bytes: &[u8]) {
        let other = self.ends.get(&link).map(|end| end.other);
        if let Some(end) = other.and_then(|other| self.ends.get_mut(&other)) {
            end.coming.extend(bytes);
        }
    }

    fn close(&mut self, link: Link) {
        self.ends.remove(&link);
    }

    fn poll(&mut self) -> Vec<News> {
        self.now += 1;
        let links: Vec<Link> = self.ends.keys().copied().collect();
        let mut news = Vec::new();
        for link in links {
            if let Some(what) = self.arrives(link) {
                let bench = self.ends[&link].bench;
                if matches!(what, What::Closed) {
                    self.ends.remove(&link);
                }
                news.push(News { bench, link, what });
            }
        }
        news
    }

    fn now(&self) -> u64 {
        self.now
    }

    fn patience(&self) -> u64 {
        80
    }

    fn traffic(&self) -> Traffic {
        self.traffic
    }
}
