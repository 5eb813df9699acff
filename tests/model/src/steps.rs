//! A whole box with its host's memory, and every call a host can make on it as a value: so that a sequence of calls can be made up once and run
//! on the model and elsewhere.

use crate::contacts::{self, Newcomer, Seen, Settled};
use crate::limits;
use crate::lookup::{self, Lookup};
use crate::message::{self, Message, PeerView, View};
use crate::node::{self, Conn, Lent, Received, Side};
use crate::peer::{Me, Mode};
use crate::recipe::{self, Broken, Fields};
use crate::records::{self, Found};
use crate::wire::Span;
use crate::writer;
use crate::Refusal;

/// A connection and its receive buffer.
#[derive(Clone, Debug, PartialEq, Eq)]
pub struct Line {
    pub conn: Conn,
    pub buffer: Vec<u8>,
}

#[derive(Clone, Debug, PartialEq, Eq)]
pub struct World {
    pub me: Me,
    pub contacts: Vec<u8>,
    pub records: Vec<u8>,
    pub reply: Vec<u8>,
    pub lines: Vec<Line>,
    pub lookups: Vec<Lookup>,
}

#[derive(Clone, Copy, Debug, PartialEq, Eq)]
pub enum Memory {
    Contacts,
    Records,
    Reply,
    Buffer(usize),
}

/// A host call. Lines and lookups are named by their number, which has to be one of the world's.
#[derive(Clone, Debug, PartialEq, Eq)]
pub enum Step {
    /// The box's start. A refused one leaves the box as it was.
    Box {
        id: Vec<u8>,
        addresses: Vec<u8>,
    },
    Seen {
        id: Vec<u8>,
        mode: Mode,
        addresses: Vec<u8>,
    },
    Settle {
        head: Vec<u8>,
        newcomer: Vec<u8>,
        mode: Mode,
        addresses: Vec<u8>,
        answered: bool,
    },
    Remove {
        id: Vec<u8>,
    },
    Doubt {
        id: Vec<u8>,
    },
    Nearest {
        key: Vec<u8>,
    },
    Put {
        key: Vec<u8>,
        value: Vec<u8>,
    },
    Find {
        key: Vec<u8>,
    },
    Open {
        line: usize,
        id: Vec<u8>,
        mode: Mode,
        addresses: Vec<u8>,
        side: Side,
    },
    Receive {
        line: usize,
        piece: Vec<u8>,
    },
    End {
        line: usize,
    },
    Start {
        lookup: usize,
        key: Vec<u8>,
        concurrency: u64,
    },
    Next {
        lookup: usize,
    },
    Reply {
        lookup: usize,
        sender: Vec<u8>,
        body: Vec<u8>,
        view: View,
    },
    Failure {
        lookup: usize,
        sender: Vec<u8>,
    },
    Read {
        body: Vec<u8>,
    },
    /// A step of a walk over a body's closerPeers or providerPeers.
    Peer {
        body: Vec<u8>,
        providers: bool,
        from: usize,
    },
    /// A step of a walk over the addresses of a peer in a body.
    Address {
        body: Vec<u8>,
        start: usize,
        end: usize,
        from: usize,
    },
    /// The writer, into the reply buffer.
    Write {
        message: Message,
    },
    RecipeRead {
        value: Vec<u8>,
    },
    /// The setpoints of a recipe's core or wrap, into lent lists that have these numbers before.
    RecipeSetpoints {
        value: Vec<u8>,
        core: bool,
        turns: Vec<u32>,
        trims: Vec<i32>,
    },
    /// The writer of recipes, into the reply buffer.
    RecipeWrite {
        fields: Fields,
    },
    /// No call: the host writes a byte into lent memory itself. Past the end, nothing happens.
    Poke {
        memory: Memory,
        at: usize,
        byte: u8,
    },
    /// No call: from now on the host lends so many bytes, those past the old end being zeros.
    Lend {
        memory: Memory,
        length: usize,
    },
}

/// What a call gave back; the world has the rest.
#[derive(Clone, Debug, PartialEq, Eq)]
pub enum Outcome {
    Begun(Option<Refusal>),
    Seen(Seen),
    Settled(Result<Settled, Refusal>),
    /// The slot that was freed.
    Removed(Result<usize, Refusal>),
    /// The slot of the contact that is doubtful now.
    Doubted(Result<usize, Refusal>),
    /// The slots of the nearest.
    Nearest(Result<Vec<usize>, Refusal>),
    Put(Result<(), Refusal>),
    Found(Result<Option<Found>, Refusal>),
    Opened(Option<Refusal>),
    Received(Received),
    Ended(Result<(), Refusal>),
    Step(lookup::Step),
    Next(lookup::Next),
    Read(Result<View, Refusal>),
    /// The entry, its id, its connection and its addresses.
    Peer(Option<PeerView>),
    Address(Option<Span>),
    Written(Result<usize, Refusal>),
    /// A recipe in seven numbers.
    RecipeRead(Result<[u64; 7], Broken>),
    /// What the lent lists have then.
    RecipeSetpoints {
        broken: Option<Broken>,
        turns: Vec<u32>,
        trims: Vec<i32>,
    },
    RecipeWritten(Result<usize, Broken>),
    /// The host did something itself.
    Done,
}

impl Outcome {
    /// The refusal's number, if the call was refused.
    pub fn refusal(&self) -> Option<u8> {
        let refusal = match self {
            Outcome::Seen(seen) => seen.refusal(),
            Outcome::Settled(r) => r.err(),
            Outcome::Removed(r) | Outcome::Doubted(r) => r.err(),
            Outcome::Nearest(r) => r.as_ref().err().copied(),
            Outcome::Put(r) | Outcome::Ended(r) => r.err(),
            Outcome::Found(r) => r.as_ref().err().copied(),
            Outcome::Begun(r) | Outcome::Opened(r) => *r,
            Outcome::Received(Received { answer: node::Answer::Refused(r), .. }) => Some(*r),
            Outcome::Step(lookup::Step::Refused(r)) | Outcome::Next(lookup::Next::Refused(r)) => Some(*r),
            Outcome::Read(r) => r.err(),
            Outcome::Written(r) => r.err(),
            Outcome::RecipeRead(Err(_)) | Outcome::RecipeSetpoints { broken: Some(_), .. } | Outcome::RecipeWritten(Err(_)) => Some(Refusal::BrokenRecipe),
            _ => None,
        };
        refusal.map(Refusal::number)
    }
}

impl World {
    /// Cleared memory, shut connections, empty lookups.
    pub fn cleared(me: Me, contact_slots: usize, record_slots: usize, lines: usize, lookups: usize) -> World {
        let (shut, _) = node::open(&me, &[], Mode::Client, &[], Side::Serving);
        World {
            me,
            contacts: vec![0; contact_slots * limits::CONTACT_SLOT],
            records: vec![0; record_slots * limits::RECORD_SLOT],
            reply: vec![0; limits::REPLY],
            lines: vec![Line { conn: shut, buffer: vec![0; limits::BODY] }; lines],
            lookups: vec![Lookup::empty(); lookups],
        }
    }

    fn begin(&mut self, id: &[u8], addresses: &[u8]) -> Option<Refusal> {
        let (me, refusal) = Me::start(id, addresses);
        if refusal.is_none() {
            self.me = me;
        }
        refusal
    }

    fn receive(&mut self, line: usize, piece: &[u8]) -> Received {
        let Line { conn, buffer } = &mut self.lines[line];
        let mut lent = Lent { contacts: &mut self.contacts, records: &mut self.records, buffer, reply: &mut self.reply };
        node::receive(&self.me, conn, &mut lent, piece)
    }

    fn on_lookup<A>(&mut self, i: usize, call: impl FnOnce(Lookup, &Me) -> (Lookup, A)) -> A {
        let taken = std::mem::replace(&mut self.lookups[i], Lookup::empty());
        let (next, answer) = call(taken, &self.me);
        self.lookups[i] = next;
        answer
    }

    fn memory(&mut self, memory: Memory) -> &mut Vec<u8> {
        match memory {
            Memory::Contacts => &mut self.contacts,
            Memory::Records => &mut self.records,
            Memory::Reply => &mut self.reply,
            Memory::Buffer(line) => &mut self.lines[line].buffer,
        }
    }

    fn poke(&mut self, memory: Memory, at: usize, byte: u8) -> Outcome {
        if let Some(there) = self.memory(memory).get_mut(at) {
            *there = byte;
        }
        Outcome::Done
    }

    /// Makes a call.
    pub fn run(&mut self, step: &Step) -> Outcome {
        match step {
            Step::Box { id, addresses } => Outcome::Begun(self.begin(id, addresses)),
            Step::Seen { id, mode, addresses } => Outcome::Seen(contacts::seen(&mut self.contacts, &self.me, id, *mode, addresses)),
            Step::Settle { head, newcomer, mode, addresses, answered } => {
                let newcomer = Newcomer { id: newcomer, mode: *mode, addresses };
                Outcome::Settled(contacts::settle(&mut self.contacts, &self.me, head, newcomer, *answered))
            }
            Step::Remove { id } => Outcome::Removed(contacts::remove(&mut self.contacts, &self.me, id)),
            Step::Doubt { id } => Outcome::Doubted(contacts::doubt(&mut self.contacts, &self.me, id)),
            Step::Nearest { key } => Outcome::Nearest(contacts::nearest(&self.contacts, &self.me, key)),
            Step::Put { key, value } => Outcome::Put(records::put(&mut self.records, key, value)),
            Step::Find { key } => Outcome::Found(records::find(&self.records, key)),
            Step::Open { line, id, mode, addresses, side } => {
                let (conn, refusal) = node::open(&self.me, id, *mode, addresses, *side);
                self.lines[*line].conn = conn;
                Outcome::Opened(refusal)
            }
            Step::Receive { line, piece } => Outcome::Received(self.receive(*line, piece)),
            Step::End { line } => Outcome::Ended(node::end(&self.me, &mut self.lines[*line].conn)),
            Step::Start { lookup, key, concurrency } => {
                let (next, answer) = Lookup::start(&self.contacts, &self.me, key, *concurrency);
                self.lookups[*lookup] = next;
                Outcome::Step(answer)
            }
            Step::Next { lookup } => Outcome::Next(self.on_lookup(*lookup, |l, _| l.next())),
            Step::Reply { lookup, sender, body, view } => Outcome::Step(self.on_lookup(*lookup, |l, me| l.reply(me, sender, body, view))),
            Step::Failure { lookup, sender } => Outcome::Step(self.on_lookup(*lookup, |l, me| l.failure(me, sender))),
            Step::Read { body } => Outcome::Read(message::read(body)),
            Step::Peer { body, providers, from } => Outcome::Peer(message::next_peer(body, *providers, *from)),
            Step::Address { body, start, end, from } => Outcome::Address(message::next_address(body, *start, *end, *from)),
            Step::Write { message } => Outcome::Written(writer::write(&mut self.reply, message)),
            Step::RecipeRead { value } => Outcome::RecipeRead(recipe::numbers(value)),
            Step::RecipeSetpoints { value, core, turns, trims } => {
                let (mut turns, mut trims) = (turns.clone(), trims.clone());
                let broken = recipe::setpoints_to(value, *core, &mut turns, &mut trims).err();
                Outcome::RecipeSetpoints { broken, turns, trims }
            }
            Step::RecipeWrite { fields } => Outcome::RecipeWritten(recipe::write_to(&mut self.reply, fields)),
            Step::Poke { memory, at, byte } => self.poke(*memory, *at, *byte),
            Step::Lend { memory, length } => {
                self.memory(*memory).resize(*length, 0);
                Outcome::Done
            }
        }
    }
}
