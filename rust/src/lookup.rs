//! Lookups: who is nearest to a key.

use crate::message::Message;
use crate::node::Node;
use crate::raw;
use crate::refusal::{answer, Refusal};
use crate::saved;
use crate::show::{Bytes, List};
use alloc::boxed::Box;
use alloc::vec;
use alloc::vec::Vec;
use core::fmt;

/// How many peers to ask at a time, unless there is a reason for another number: a lookup takes 1 to 10 (docs/RULES.md, Lookup).
pub const CONCURRENCY: usize = 3;

/// What a candidate's first byte says (crates/flat_lookup, specs/FlatLookup has the layout).
const IDLE: u8 = 0;
const IN_FLIGHT: u8 = 1;
const ANSWERED: u8 = 2;
const FAILED: u8 = 3;

/// What a lookup wants done.
#[derive(Clone, Copy, PartialEq, Eq)]
pub enum Step<'a> {
    /// Ask the peer with this id: send it a FIND_NODE for the lookup's key, then report its reply or its failure.
    Ask(&'a [u8]),
    /// Enough are asked. Call again after the next reply or failure.
    Wait,
    /// It is over, and no nearer peer was left out.
    Complete(Outcome<'a>),
    /// It is over, and more peers were named than it has room for: 256.
    CutShort(Outcome<'a>),
}

impl fmt::Debug for Step<'_> {
    fn fmt(&self, f: &mut fmt::Formatter<'_>) -> fmt::Result {
        match self {
            Step::Ask(id) => f.debug_tuple("Ask").field(&Bytes(id)).finish(),
            Step::Wait => f.write_str("Wait"),
            Step::Complete(outcome) => f.debug_tuple("Complete").field(outcome).finish(),
            Step::CutShort(outcome) => f.debug_tuple("CutShort").field(outcome).finish(),
        }
    }
}

/// What a lookup found.
#[derive(Clone, Copy, PartialEq, Eq)]
pub struct Outcome<'a> {
    lookup: &'a [u8],
    numbers: &'a [u64; 22],
}

impl<'a> Outcome<'a> {
    /// How many requests it sent.
    pub fn requests(self) -> usize {
        self.numbers[0] as usize
    }

    /// The ids of those that answered, of the twenty nearest: nearest first.
    pub fn peers(self) -> impl ExactSizeIterator<Item = &'a [u8]> + Clone {
        self.numbers[2..2 + self.numbers[1] as usize].iter().map(move |&rank| candidate(self.lookup, rank as usize))
    }
}

impl fmt::Debug for Outcome<'_> {
    fn fmt(&self, f: &mut fmt::Formatter<'_>) -> fmt::Result {
        f.debug_struct("Outcome").field("requests", &self.requests()).field("peers", &List(self.peers())).finish()
    }
}

/// A search for the twenty peers nearest to a key. It sends nothing itself: it says whom to ask, and is told what came back.
///
/// ```
/// use starterbell::lookup::{Lookup, Step, CONCURRENCY};
/// use starterbell::message::{Draft, Message};
/// use starterbell::{Event, Node, Peer, Room};
///
/// let mut me = Node::start(b"bench-1", &[], Room::default())?;
/// let mut other = Node::start(b"bench-2", &[], Room::default())?;
/// me.seen(Peer::server(other.id(), &[]))?;
///
/// let mut lookup = Lookup::start(&me, b"/wind/g-string", CONCURRENCY)?;
/// while let Step::Ask(id) = lookup.next()? {
///     let id = id.to_vec();
///     let request = Draft::find_node(lookup.key()).to_vec()?;
///     // the host's part: sends the request to that peer, which answers, and hands in the bytes that come back
///     let mut serving = other.accept(Peer::server(me.id(), &[]))?;
///     let Event::Reply(reply) = other.receive(&mut serving, &request).event else { panic!("no reply") };
///     let mut asking = me.connect(Peer::server(&id, &[]))?;
///     let Event::Heard(message) = me.receive(&mut asking, reply).event else { panic!("no message") };
///     lookup.reply(&me, &id, &message)?;
/// }
/// let Step::Complete(outcome) = lookup.next()? else { panic!("not over") };
/// assert_eq!(outcome.peers().collect::<Vec<_>>(), [other.id()]);
/// # Ok::<(), starterbell::Refusal>(())
/// ```
///
/// The figures on stack are those of the exported functions, as for a [`Node`](Node#stack).
#[derive(Clone)]
pub struct Lookup {
    state: Box<[u8]>,
    numbers: [u64; 22],
    over: bool,
}

/// The id of the candidate with this rank.
fn candidate(state: &[u8], rank: usize) -> &[u8] {
    let candidate = &state[168 + rank * 98..][..98];
    &candidate[2..2 + usize::from(candidate[1])]
}

impl Lookup {
    /// Starts a lookup from a box's contacts that aren't doubtful, for a key of 1 to 128 bytes, with 1 to 10 peers asked at a time. With no such contact it is over at once.
    ///
    /// Stack: 11,239 bytes on Arm, 11,175 on x86-64.
    pub fn start(node: &Node, key: &[u8], limit: usize) -> Result<Lookup, Refusal> {
        let mut lookup = Lookup { state: vec![0; raw::LOOKUP].into(), numbers: [0; 22], over: false };
        let returned = raw::lookup_start(node.me(), &mut lookup.state, node.table(), key, limit, &mut lookup.numbers);
        lookup.keep(returned)?;
        Ok(lookup)
    }

    /// The lookup as bytes, to be [restored](Lookup::restore) later. Save it between calls, whole, and with the box that started it ([`Node::save`]).
    pub fn save(&self) -> Vec<u8> {
        saved::pack(saved::LOOKUP, &[&self.state])
    }

    /// A lookup as it was when it was [saved](Lookup::save), with the same promises as for a [box](Node#saving). Nobody will answer the requests that were on their way
    /// when the power went: report them as failures.
    ///
    /// ```
    /// # use starterbell::{lookup::Step, Lookup, Node, Peer, Room};
    /// # let mut node = Node::start(b"bench-1", &[], Room::default())?;
    /// # node.seen(Peer::server(b"bench-2", &[]))?;
    /// # let mut before = Lookup::start(&node, b"/wind/g-string", 3)?;
    /// # assert!(matches!(before.next()?, Step::Ask(b"bench-2")));
    /// # let saved = before.save();
    /// let mut lookup = Lookup::restore(&saved)?;
    /// let asked: Vec<Vec<u8>> = lookup.in_flight().map(<[u8]>::to_vec).collect();
    /// for id in &asked {
    ///     lookup.failure(&node, id)?;
    /// }
    /// # assert_eq!((asked.len(), lookup.is_over()), (1, true));
    /// # Ok::<(), starterbell::Refusal>(())
    /// ```
    ///
    /// Refused with 0 where the bytes aren't a save of a lookup, or not as it was written. Stack: as for [`next`](Lookup::next).
    pub fn restore(saved: &[u8]) -> Result<Lookup, Refusal> {
        let [state] = saved::unpack(saved::LOOKUP, saved)?;
        if state.len() != raw::LOOKUP {
            return Err(Refusal::OutOfForm);
        }
        let mut lookup = Lookup { state: state.into(), numbers: [0; 22], over: false };
        // a step says whether it is in form, and whether it is over; then it is taken back
        let returned = raw::lookup_next(&mut lookup.state, &mut lookup.numbers);
        lookup.keep(returned)?;
        lookup.state.copy_from_slice(state);
        Ok(lookup)
    }

    /// An answer of the exported functions: 67 and 68 say that it is over.
    fn keep(&mut self, returned: u32) -> Result<u32, Refusal> {
        let code = answer(returned)?;
        self.over = code >= 67;
        Ok(code)
    }

    /// The key.
    pub fn key(&self) -> &[u8] {
        &self.state[8..8 + usize::from(self.state[2])]
    }

    /// The key's place: its SHA-256.
    pub fn target(&self) -> &[u8; 32] {
        self.state[136..168].try_into().expect("32 bytes")
    }

    /// Whether it is over.
    pub fn is_over(&self) -> bool {
        self.over
    }

    /// The ids of those that were asked and are still to answer or fail.
    pub fn in_flight(&self) -> impl Iterator<Item = &[u8]> {
        self.marked(IN_FLIGHT)
    }

    /// The ids of the candidates with this mark.
    fn marked(&self, mark: u8) -> impl Iterator<Item = &[u8]> + Clone {
        let count = usize::from(u16::from_le_bytes([self.state[0], self.state[1]]));
        (0..count).filter(move |rank| self.state[168 + rank * 98] == mark).map(|rank| candidate(&self.state, rank))
    }

    /// What to do next. Call it until it says to wait, or that it is over; then it repeats itself.
    ///
    /// Stack: 823 bytes on Arm, 695 on x86-64.
    #[allow(clippy::should_implement_trait)]
    pub fn next(&mut self) -> Result<Step<'_>, Refusal> {
        let returned = raw::lookup_next(&mut self.state, &mut self.numbers);
        let code = self.keep(returned)?;
        let outcome = Outcome { lookup: &self.state, numbers: &self.numbers };
        Ok(match code {
            66 => Step::Ask(candidate(&self.state, self.numbers[0] as usize)),
            67 => Step::Complete(outcome),
            68 => Step::CutShort(outcome),
            _ => Step::Wait,
        })
    }

    /// A message came from a peer that was asked. Any but a reply to FIND_NODE counts as its failure.
    ///
    /// Stack: 4,919 bytes on Arm, 4,695 on x86-64.
    pub fn reply(&mut self, node: &Node, sender: &[u8], message: &Message<'_>) -> Result<(), Refusal> {
        let returned = raw::lookup_reply(node.me(), &mut self.state, sender, message.body(), message.view(), &mut self.numbers);
        self.keep(returned).map(|_| ())
    }

    /// A peer that was asked can't be reached, broke the rules, or let too much time pass. It isn't asked again.
    ///
    /// Stack: 3,063 bytes on Arm, 3,015 on x86-64.
    pub fn failure(&mut self, node: &Node, sender: &[u8]) -> Result<(), Refusal> {
        let returned = raw::lookup_failure(node.me(), &mut self.state, sender, &mut self.numbers);
        self.keep(returned).map(|_| ())
    }
}

impl fmt::Debug for Lookup {
    /// Says what is looked for, and how far it has come.
    fn fmt(&self, f: &mut fmt::Formatter<'_>) -> fmt::Result {
        let count = |mark| self.marked(mark).count();
        let mut shown = f.debug_struct("Lookup");
        shown.field("key", &Bytes(self.key())).field("over", &self.over).field("idle", &count(IDLE));
        shown.field("in_flight", &List(self.marked(IN_FLIGHT))).field("answered", &count(ANSWERED)).field("failed", &count(FAILED)).finish()
    }
}
