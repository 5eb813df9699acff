//! The closest-peer lookup. Each step takes the lookup in and hands the next one back.

use crate::contacts;
use crate::limits;
use crate::message::{self, View, FIND_NODE};
use crate::peer::{id_fits, Me};
use crate::place::{distance, place_of, Place};
use crate::Refusal;

#[derive(Clone, Copy, Debug, PartialEq, Eq)]
pub enum Mark {
    Idle,
    InFlight,
    Answered,
    Failed,
}

#[derive(Clone, Debug, PartialEq, Eq)]
pub struct Candidate {
    pub mark: Mark,
    pub id: Vec<u8>,
    pub place: Place,
}

#[derive(Clone, Debug, PartialEq, Eq)]
pub struct Lookup {
    pub key: Vec<u8>,
    /// The key's place; it isn't hashed again.
    pub place: Place,
    pub limit: u64,
    /// Nearest first.
    pub candidates: Vec<Candidate>,
    /// "A new place with no room marks the lookup."
    pub turned_away: bool,
}

/// "Over means complete, or cut short if marked, with the answered ones of those 20 in order and the number of requests sent."
#[derive(Clone, Debug, PartialEq, Eq)]
pub struct Outcome {
    pub complete: bool,
    pub answered: Vec<Vec<u8>>,
    pub sent: usize,
}

/// The answer of a start, reply or failure.
#[derive(Clone, Debug, PartialEq, Eq)]
pub enum Step {
    Over(Outcome),
    Going,
    Refused(Refusal),
}

/// The answer of a next.
#[derive(Clone, Debug, PartialEq, Eq)]
pub enum Next {
    Over(Outcome),
    Wait,
    /// This candidate, by its place in the list and its id, is to be asked.
    Ask {
        candidate: usize,
        id: Vec<u8>,
    },
    Refused(Refusal),
}

impl Lookup {
    /// What a refused start hands back.
    pub fn empty() -> Lookup {
        Lookup { key: vec![], place: [0; 32], limit: 0, candidates: vec![], turned_away: false }
    }

    /// "A key of 1 to 128 bytes, a limit of 1 to 10, up to 256 candidates nearest first with ids of 1 to 64 bytes, no place twice."
    pub fn in_form(&self) -> bool {
        let away = |c: &Candidate| distance(&c.place, &self.place);
        (1..=limits::KEY).contains(&self.key.len())
            && (1..=limits::CONCURRENCY).contains(&self.limit)
            && self.candidates.len() <= limits::CANDIDATES
            && self.candidates.iter().all(|c| id_fits(&c.id))
            && self.candidates.windows(2).all(|pair| away(&pair[0]) < away(&pair[1]))
    }

    /// The 20 nearest not failed, by their places in the list.
    pub fn twenty(&self) -> Vec<usize> {
        (0..self.candidates.len()).filter(|i| self.candidates[*i].mark != Mark::Failed).take(limits::NEAREST).collect()
    }

    pub fn is_over(&self) -> bool {
        self.twenty().iter().all(|i| self.candidates[*i].mark == Mark::Answered)
    }

    fn marked(&self, mark: Mark) -> usize {
        self.candidates.iter().filter(|c| c.mark == mark).count()
    }

    /// What comes with over.
    pub fn outcome(&self) -> Outcome {
        let answered = self.twenty().into_iter().map(|i| &self.candidates[i]).filter(|c| c.mark == Mark::Answered);
        Outcome { complete: !self.turned_away, answered: answered.map(|c| c.id.clone()).collect(), sent: self.candidates.len() - self.marked(Mark::Idle) }
    }

    fn step(&self) -> Step {
        if self.is_over() {
            Step::Over(self.outcome())
        } else {
            Step::Going
        }
    }

    /// Start: 0 (contacts), 8, 12 for our own id, 20; then the 20 nearest contacts that aren't doubtful as idle candidates.
    pub fn start(table: &[u8], me: &Me, key: &[u8], concurrency: u64) -> (Lookup, Step) {
        let begun = contacts::nearest(table, me, key).and_then(|nearest| {
            if (1..=limits::CONCURRENCY).contains(&concurrency) {
                Ok(nearest)
            } else {
                Err(Refusal::BadConcurrency)
            }
        });
        let nearest = match begun {
            Ok(nearest) => nearest,
            Err(refusal) => return (Lookup::empty(), Step::Refused(refusal)),
        };
        let candidate = |c: contacts::Contact| Candidate { mark: Mark::Idle, id: c.id, place: c.place };
        let candidates = nearest.into_iter().map(|i| candidate(contacts::contact(table, i))).collect();
        let begun = Lookup { key: key.to_vec(), place: place_of(key), limit: concurrency, candidates, turned_away: false };
        let step = begun.step();
        (begun, step)
    }

    /// "Over, if all of the 20 nearest not failed have answered; else wait, if the limit is in flight; else ask the nearest idle one among those 20;
    /// else wait."
    pub fn next(mut self) -> (Lookup, Next) {
        if !self.in_form() {
            return (self, Next::Refused(Refusal::OutOfForm));
        }
        if self.is_over() {
            let outcome = self.outcome();
            return (self, Next::Over(outcome));
        }
        if self.marked(Mark::InFlight) as u64 >= self.limit {
            return (self, Next::Wait);
        }
        match self.twenty().into_iter().find(|i| self.candidates[*i].mark == Mark::Idle) {
            None => (self, Next::Wait),
            Some(i) => {
                self.candidates[i].mark = Mark::InFlight;
                let id = self.candidates[i].id.clone();
                (self, Next::Ask { candidate: i, id })
            }
        }
    }

    /// Which candidate a report is about: 12, 17, 16.
    fn reported(&self, me: &Me, id: &[u8]) -> Result<usize, Refusal> {
        let place = me.place_of(id)?;
        if self.is_over() {
            return Err(Refusal::LookupOver);
        }
        self.candidates.iter().position(|c| c.place == place && c.mark == Mark::InFlight).ok_or(Refusal::NotInFlight)
    }

    /// An entry of closerPeers is heard, unless its id is bad, it is us, or its place is known.
    fn hear(&mut self, me: &Me, id: &[u8]) {
        if !id_fits(id) {
            return;
        }
        let place = place_of(id);
        if place == me.place || self.candidates.iter().any(|c| c.place == place) {
            return;
        }
        if self.candidates.len() == limits::CANDIDATES {
            self.turned_away = true;
            return;
        }
        self.candidates.push(Candidate { mark: Mark::Idle, id: id.to_vec(), place });
        let target = self.place;
        self.candidates.sort_by_key(|c| distance(&c.place, &target));
    }

    /// A reply: 0 (lookup, view), 12, 17, 16; then what it says. "Any other type .. marks the peer failed for good."
    pub fn reply(mut self, me: &Me, sender: &[u8], body: &[u8], view: &View) -> (Lookup, Step) {
        if !self.in_form() || message::read(body) != Ok(*view) {
            return (self, Step::Refused(Refusal::OutOfForm));
        }
        match self.reported(me, sender) {
            Err(refusal) => return (self, Step::Refused(refusal)),
            Ok(i) if view.kind != FIND_NODE => self.candidates[i].mark = Mark::Failed,
            Ok(i) => {
                self.candidates[i].mark = Mark::Answered;
                for peer in message::closer_peers(body).iter().take(limits::HEARD) {
                    self.hear(me, peer.id.of(body));
                }
            }
        }
        let step = self.step();
        (self, step)
    }

    /// A failure report: 0, 12, 17, 16; then the peer is failed for good.
    pub fn failure(mut self, me: &Me, sender: &[u8]) -> (Lookup, Step) {
        if !self.in_form() {
            return (self, Step::Refused(Refusal::OutOfForm));
        }
        match self.reported(me, sender) {
            Err(refusal) => (self, Step::Refused(refusal)),
            Ok(i) => {
                self.candidates[i].mark = Mark::Failed;
                let step = self.step();
                (self, step)
            }
        }
    }
}
