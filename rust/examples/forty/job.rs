//! What a bench wants from the others: each goal begins with a lookup.

use crate::path::{Path, HEARD};
use crate::tally::Around;
use starterbell::lookup::{Lookup, Step, CONCURRENCY};
use starterbell::message::{Draft, Kind, Message};
use starterbell::recipe::{self, Recipe};
use starterbell::{Node, Refusal};
use std::collections::{BTreeMap, VecDeque};

/// With so many good answers a bench takes the highest-ranking one. There are never as many benches that send old recipes.
pub const ENOUGH: usize = 4;

#[derive(Clone)]
pub enum Goal {
    /// Find who is near ourselves, and become known.
    Join,
    /// Put a recipe at the benches nearest to its key.
    Put { key: Vec<u8>, value: Vec<u8> },
    /// Find a recipe.
    Get { key: Vec<u8> },
}

/// What a request is for.
#[derive(Clone, Copy, PartialEq)]
pub enum Why {
    Look,
    Put,
    Get,
}

/// A request to be sent.
pub struct Request {
    pub id: Vec<u8>,
    pub addresses: Vec<Vec<u8>>,
    pub message: Vec<u8>,
    pub why: Why,
}

/// A goal on its way.
pub struct Job {
    pub goal: Goal,
    lookup: Lookup,
    /// The lookup said to wait, and nothing has come since.
    waits: bool,
    /// Where the peers that were heard of can be reached: a lookup keeps ids alone.
    book: BTreeMap<Vec<u8>, Vec<Vec<u8>>>,
    /// Once the lookup is over: whom it found and who isn't asked yet.
    found: Option<VecDeque<Vec<u8>>>,
    /// Puts and gets on their way.
    asked: usize,
    values: Vec<Vec<u8>>,
    /// What the lookup did, for the picture.
    path: Path,
}

impl Job {
    pub fn start(node: &Node, goal: Goal, around: &mut Around) -> Result<Job, Refusal> {
        let key = match &goal {
            Goal::Join => node.id(),
            Goal::Put { key, .. } | Goal::Get { key } => key,
        };
        let lookup = Lookup::start(node, key, CONCURRENCY)?;
        around.tally.lookups += 1;
        let book = node.contacts().map(|contact| (contact.id().to_vec(), contact.addresses().map(<[u8]>::to_vec).collect())).collect();
        let known = node.nearest(key)?.iter().map(|contact| contact.id().to_vec()).collect();
        let path = Path::new(*lookup.target(), known);
        Ok(Job { goal, lookup, waits: false, book, found: None, asked: 0, values: Vec::new(), path })
    }

    /// The path of its lookup.
    pub fn take_path(&mut self) -> Path {
        std::mem::take(&mut self.path)
    }

    /// The next request, if there is one to be sent now.
    pub fn next(&mut self, around: &mut Around) -> Option<Request> {
        if self.waits {
            return None;
        }
        if self.found.is_none() {
            let step = self.lookup.next();
            let outcome = match around.told(step)? {
                Step::Ask(id) => {
                    let id = id.to_vec();
                    self.path.ask(&id);
                    let message = Draft::find_node(self.lookup.key()).to_vec().ok()?;
                    return Some(self.request(id, message, Why::Look));
                }
                Step::Wait => {
                    self.waits = true;
                    return None;
                }
                Step::Complete(outcome) => {
                    around.tally.complete += 1;
                    outcome
                }
                Step::CutShort(outcome) => {
                    around.tally.cut_short += 1;
                    outcome
                }
            };
            let requests = outcome.requests() as u64;
            self.path.requests = outcome.requests();
            self.path.found = outcome.peers().map(<[u8]>::to_vec).collect();
            self.found = Some(self.path.found.iter().cloned().collect());
            around.tally.requests += requests;
            around.tally.most_requests = around.tally.most_requests.max(requests);
        }
        self.use_found()
    }

    fn request(&self, id: Vec<u8>, message: Vec<u8>, why: Why) -> Request {
        let addresses = self.book.get(&id).cloned().unwrap_or_default();
        Request { id, addresses, message, why }
    }

    /// Puts to those that were found, or gets from them.
    fn use_found(&mut self) -> Option<Request> {
        if self.asked == CONCURRENCY || self.values.len() >= ENOUGH {
            return None;
        }
        let (message, why) = match &self.goal {
            Goal::Join => return None,
            Goal::Put { key, value } => (Draft::put_value(key, value), Why::Put),
            Goal::Get { key } => (Draft::get_value(key), Why::Get),
        };
        let id = self.found.as_mut()?.pop_front()?;
        let message = message.to_vec().ok()?;
        self.asked += 1;
        Some(self.request(id, message, why))
    }

    /// A message came for a request.
    pub fn heard(&mut self, node: &Node, sender: &[u8], why: Why, message: &Message, around: &mut Around) {
        self.waits = false;
        match why {
            Why::Look => self.heard_of(node, sender, message, around),
            Why::Put => {
                self.asked -= 1;
                around.tally.stored += u64::from(message.kind() == Kind::PutValue && message.record().is_some());
            }
            Why::Get => {
                self.asked -= 1;
                self.got(message, around);
            }
        }
    }

    /// A message that answers no request goes to the lookup too, which refuses it.
    pub fn heard_of(&mut self, node: &Node, sender: &[u8], message: &Message, around: &mut Around) {
        self.waits = false;
        let told = self.lookup.reply(node, sender, message);
        if around.told(told).is_none() {
            return;
        }
        self.path.heard(sender, message);
        for entry in message.closer_peers().take(HEARD).filter(|entry| (1..=64).contains(&entry.id().len())) {
            let addresses = || entry.addresses().take(4).map(<[u8]>::to_vec).collect();
            self.book.entry(entry.id().to_vec()).or_insert_with(addresses);
        }
    }

    /// A value is taken if it is of the key, and a recipe.
    fn got(&mut self, message: &Message, around: &mut Around) {
        let (Goal::Get { key }, Some(record)) = (&self.goal, message.record()) else { return };
        let wrong = match Recipe::from_value(record.value) {
            Ok(_) if record.key == key => return self.values.push(record.value.to_vec()),
            Ok(_) => "of another key".into(),
            Err(broken) => format!("{:?}", broken.rule),
        };
        *around.tally.broken.entry(wrong).or_default() += 1;
    }

    /// Nothing came for a request.
    pub fn failed(&mut self, node: &Node, sender: &[u8], why: Why, around: &mut Around) {
        self.waits = false;
        match why {
            Why::Look => {
                let told = self.lookup.failure(node, sender);
                around.told(told);
            }
            Why::Put | Why::Get => self.asked -= 1,
        }
    }

    /// Whether nothing is left to do.
    pub fn is_over(&self) -> bool {
        let Some(found) = &self.found else { return false };
        match self.goal {
            Goal::Join => true,
            Goal::Put { .. } => found.is_empty() && self.asked == 0,
            Goal::Get { .. } => self.values.len() >= ENOUGH || (found.is_empty() && self.asked == 0),
        }
    }

    /// The highest-ranking recipe that came.
    pub fn best(self, around: &mut Around) -> Option<Vec<u8>> {
        let best = self.values.iter().reduce(|best, value| if recipe::outranks(value, best) { value } else { best })?;
        around.tally.outranked += self.values.iter().filter(|value| *value != best).count() as u64;
        Some(best.clone())
    }
}
