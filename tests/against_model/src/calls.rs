//! A call as a host makes it: the model's step, and what only a caller of the library can vary.

use starterbell_model::steps::Step;

/// Lent memory, by what it is for; connections, their buffers and lookups by number.
#[derive(Clone, Copy, Debug, PartialEq, Eq)]
pub enum Region {
    Box,
    Contacts,
    Records,
    Reply,
    Connection(usize),
    Buffer(usize),
    Lookup(usize),
}

/// How many bytes of each are lent, at most. `state` is the connection or the lookup.
#[derive(Clone, Debug, PartialEq, Eq)]
pub struct Lent {
    pub me: usize,
    pub state: usize,
    pub contacts: usize,
    pub records: usize,
    pub reply: usize,
    pub buffer: usize,
}

pub const ALL: Lent = Lent { me: usize::MAX, state: usize::MAX, contacts: usize::MAX, records: usize::MAX, reply: usize::MAX, buffer: usize::MAX };

#[derive(Clone, Debug)]
pub struct Call {
    pub step: Step,
    pub lent: Lent,
    /// What stands in `out` before.
    pub out: Vec<u64>,
    /// The number that says yes.
    pub yes: u32,
    /// The view of a reply, as numbers.
    pub view: Vec<u64>,
    /// The closer peers and the providers of a message to be written, as bytes, and a record's key and value where it has none.
    pub lists: [Vec<u8>; 4],
}

impl Call {
    pub fn plain(step: Step) -> Call {
        Call { step, lent: ALL, out: vec![], yes: 1, view: vec![], lists: Default::default() }
    }

    /// The memory that a call is lent.
    pub fn regions(&self) -> Vec<Region> {
        match &self.step {
            Step::Box { .. } => vec![Region::Box],
            Step::Seen { .. } | Step::Settle { .. } | Step::Remove { .. } | Step::Doubt { .. } | Step::Nearest { .. } => vec![Region::Box, Region::Contacts],
            Step::Put { .. } | Step::Find { .. } => vec![Region::Records],
            Step::Open { line, .. } | Step::End { line } => vec![Region::Box, Region::Connection(*line)],
            Step::Receive { line, .. } => {
                vec![Region::Box, Region::Connection(*line), Region::Buffer(*line), Region::Contacts, Region::Records, Region::Reply]
            }
            Step::Start { lookup, .. } => vec![Region::Box, Region::Lookup(*lookup), Region::Contacts],
            Step::Next { lookup } => vec![Region::Lookup(*lookup)],
            Step::Reply { lookup, .. } | Step::Failure { lookup, .. } => vec![Region::Box, Region::Lookup(*lookup)],
            Step::Write { .. } | Step::RecipeWrite { .. } => vec![Region::Reply],
            Step::Read { .. } | Step::Peer { .. } | Step::Address { .. } | Step::RecipeRead { .. } | Step::RecipeSetpoints { .. } => vec![],
            Step::Poke { .. } | Step::Lend { .. } => vec![],
        }
    }

    /// Whether it is lent too little to be a box, a connection or a lookup.
    pub fn is_short(&self) -> bool {
        self.regions().iter().any(|region| match region {
            Region::Box => self.lent.me < crate::layout::BOX,
            Region::Connection(_) => self.lent.state < crate::layout::CONNECTION,
            Region::Lookup(_) => self.lent.state < crate::layout::LOOKUP,
            _ => false,
        })
    }
}
