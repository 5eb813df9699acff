//! The path of a lookup: who was asked, in which order, whom each answer named, and who was found.

use starterbell::message::{Kind, Message};
use std::collections::BTreeMap;

/// A lookup hears of so many peers of an answer.
pub const HEARD: usize = 21;

/// A request of a lookup.
pub struct Asked {
    pub id: Vec<u8>,
    /// The ids that its answer named; none where no answer came.
    pub named: Option<Vec<Vec<u8>>>,
}

#[derive(Default)]
pub struct Path {
    /// The place that is looked for.
    pub target: [u8; 32],
    /// Whom it knew when it began.
    pub known: Vec<Vec<u8>>,
    /// In the order of the requests.
    pub asked: Vec<Asked>,
    /// Nearest first.
    pub found: Vec<Vec<u8>>,
    /// How many requests the lookup says that it sent.
    pub requests: usize,
    /// Which request's answer named a peer first.
    namers: BTreeMap<Vec<u8>, usize>,
}

impl Path {
    pub fn new(target: [u8; 32], known: Vec<Vec<u8>>) -> Path {
        Path { target, known, ..Path::default() }
    }

    pub fn ask(&mut self, id: &[u8]) {
        self.asked.push(Asked { id: id.to_vec(), named: None });
    }

    /// The lookup took a message from somebody that it had asked. One that is no answer counts as a failure, as it does for the lookup.
    pub fn heard(&mut self, sender: &[u8], message: &Message) {
        let Some(request) = self.asked.iter().position(|asked| asked.id == sender) else { return };
        if message.kind() != Kind::FindNode {
            return;
        }
        let named = message.closer_peers().take(HEARD).filter(|entry| (1..=64).contains(&entry.id().len()));
        let named: Vec<Vec<u8>> = named.map(|entry| entry.id().to_vec()).collect();
        for id in &named {
            self.namers.entry(id.clone()).or_insert(request);
        }
        self.asked[request].named = Some(named);
    }

    pub fn answers(&self) -> usize {
        self.asked.iter().filter(|asked| asked.named.is_some()).count()
    }

    /// The request whose answer named this peer first; none where it was known from the start, or named by nobody.
    pub fn namer(&self, id: &[u8]) -> Option<usize> {
        if self.known.iter().any(|known| known == id) {
            return None;
        }
        self.namers.get(id).copied()
    }
}
