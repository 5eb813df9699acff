//! One world twice: the model's, and the same state as bytes lent to the library. Each call is made on both, and what they give and leave is compared.

use crate::answer::{answer_of, Answer};
use crate::calls::{Call, Region};
use crate::host::{Host, Made};
use crate::layout;
use crate::memory::Guarded;
use starterbell_model::steps::{Memory, Step, World};

pub struct Twin {
    pub world: World,
    pub host: Host,
    /// The bytes that the model's values are.
    me: Vec<u8>,
    connections: Vec<Vec<u8>>,
    lookups: Vec<Vec<u8>>,
    calls: u64,
}

/// How often memory that wasn't lent is compared too: once in so many calls.
const ALL_ONE_IN: u64 = 64;

fn all_guarded(list: &[Vec<u8>]) -> Vec<Guarded<u8>> {
    list.iter().map(|bytes| Guarded::of(bytes)).collect()
}

impl Twin {
    /// The world, with some bytes after the box, each connection and each lookup that no call may touch.
    pub fn new(world: World, after: &[u8]) -> Twin {
        let with = |bytes: Vec<u8>| [&bytes[..], after].concat();
        let me = with(layout::box_bytes(&world.me));
        let connections: Vec<Vec<u8>> = world.lines.iter().map(|l| with(layout::connection_bytes(&l.conn))).collect();
        let lookups: Vec<Vec<u8>> = world.lookups.iter().map(|l| with(layout::lookup_bytes(l))).collect();
        let host = Host {
            me: Guarded::of(&me),
            contacts: Guarded::of(&world.contacts),
            records: Guarded::of(&world.records),
            reply: Guarded::of(&world.reply),
            connections: all_guarded(&connections),
            buffers: world.lines.iter().map(|l| Guarded::of(&l.buffer)).collect(),
            lookups: all_guarded(&lookups),
        };
        Twin { world, host, me, connections, lookups, calls: 0 }
    }

    /// The model's bytes.
    pub fn bytes(&self, region: Region) -> &[u8] {
        match region {
            Region::Box => &self.me,
            Region::Contacts => &self.world.contacts,
            Region::Records => &self.world.records,
            Region::Reply => &self.world.reply,
            Region::Connection(line) => &self.connections[line],
            Region::Buffer(line) => &self.world.lines[line].buffer,
            Region::Lookup(lookup) => &self.lookups[lookup],
        }
    }

    /// The host writes into its own memory: bytes past the end are left out. The model then has the values that the bytes are.
    pub fn write(&mut self, region: Region, at: usize, bytes: &[u8]) {
        let lent = self.host.region_mut(region).lend(usize::MAX);
        let n = bytes.len().min(lent.len().saturating_sub(at));
        if n == 0 {
            return;
        }
        lent[at..at + n].copy_from_slice(&bytes[..n]);
        let expected = match region {
            Region::Box => &mut self.me,
            Region::Contacts => &mut self.world.contacts,
            Region::Records => &mut self.world.records,
            Region::Reply => &mut self.world.reply,
            Region::Connection(line) => &mut self.connections[line],
            Region::Buffer(line) => &mut self.world.lines[line].buffer,
            Region::Lookup(lookup) => &mut self.lookups[lookup],
        };
        expected[at..at + n].copy_from_slice(&bytes[..n]);
        match region {
            Region::Box => self.world.me = layout::box_in(&self.me),
            Region::Connection(line) => self.world.lines[line].conn = layout::connection_in(&self.connections[line]),
            Region::Lookup(lookup) => self.world.lookups[lookup] = layout::lookup_in(&self.lookups[lookup]),
            _ => {}
        }
    }

    /// From now on the host lends so many bytes.
    pub fn resize(&mut self, memory: Memory, length: usize) {
        self.world.run(&Step::Lend { memory, length });
        let region = match memory {
            Memory::Contacts => Region::Contacts,
            Memory::Records => Region::Records,
            Memory::Reply => Region::Reply,
            Memory::Buffer(line) => Region::Buffer(line),
        };
        let lent = Guarded::of(self.bytes(region));
        *self.host.region_mut(region) = lent;
    }

    /// Runs the model's step on the memory that is lent: what isn't is put back after it.
    fn run_lent(&mut self, call: &Call) -> Answer {
        let line = if let Step::Receive { line, .. } = call.step { Some(line) } else { None };
        let cut = |bytes: &mut Vec<u8>, n: usize| if n < bytes.len() { bytes.split_off(n) } else { vec![] };
        let contacts = cut(&mut self.world.contacts, call.lent.contacts);
        let records = cut(&mut self.world.records, call.lent.records);
        let reply = cut(&mut self.world.reply, call.lent.reply);
        let buffer = line.map_or(vec![], |l| cut(&mut self.world.lines[l].buffer, call.lent.buffer));
        let outcome = self.world.run(&call.step);
        self.world.contacts.extend(contacts);
        self.world.records.extend(records);
        self.world.reply.extend(reply);
        if let Some(l) = line {
            self.world.lines[l].buffer.extend(buffer);
        }
        answer_of(&outcome, &call.step, &self.world)
    }

    /// The model's step: what the library has to give. Too little memory for a box, a connection or a lookup is 0, and `receive` says that it took nothing.
    fn expect(&mut self, call: &Call) -> Answer {
        if call.is_short() {
            return Answer { numbers: if matches!(call.step, Step::Receive { .. }) { vec![0; 4] } else { vec![] }, ..Answer::default() };
        }
        let answer = self.run_lent(call);
        self.follow(&call.step, answer.code);
        if let Step::Receive { line, .. } = call.step {
            self.carry(line, &answer);
        }
        answer
    }

    /// The model's connections are values. Where a host wrote into the bytes of one that follow its id, a sighting that joins carries them into the contact's slot.
    fn carry(&mut self, line: usize, answer: &Answer) {
        let peer = &self.connections[line][..layout::BOX];
        let [_, _, sighting, slot] = answer.numbers[..4] else { return };
        if answer.code == 65 && sighting == 2 {
            for at in layout::after_id(peer) {
                self.world.contacts[slot as usize * layout::BOX + at] = peer[at];
            }
        }
    }

    /// The bytes of the box, the connection or the lookup after a step.
    fn follow(&mut self, step: &Step, code: u32) {
        let refused = code < 64;
        match step {
            Step::Box { .. } if !refused => self.me[..layout::BOX].copy_from_slice(&layout::box_bytes(&self.world.me)),
            Step::Open { line, .. } => {
                let bytes = layout::connection_bytes(&self.world.lines[*line].conn);
                self.connections[*line][..layout::CONNECTION].copy_from_slice(&bytes);
            }
            Step::Receive { line, .. } | Step::End { line } if ![0, 1, 2, 12].contains(&code) => {
                let bytes = layout::framing_bytes(&self.world.lines[*line].conn.framing);
                self.connections[*line][layout::FRAMING..layout::FRAMING + 8].copy_from_slice(&bytes);
            }
            Step::Start { lookup, .. } => {
                let bytes = layout::lookup_bytes(&self.world.lookups[*lookup]);
                self.lookups[*lookup][..layout::LOOKUP].copy_from_slice(&bytes);
            }
            Step::Next { lookup } | Step::Reply { lookup, .. } | Step::Failure { lookup, .. } if !refused => {
                self.lookups[*lookup] = layout::lookup_after(&self.lookups[*lookup], &self.world.lookups[*lookup]);
            }
            _ => {}
        }
    }

    /// Makes a call on both; what differs, if anything does.
    pub fn call(&mut self, call: &Call) -> Result<Answer, String> {
        let expected = self.expect(call);
        let made = self.host.call(call);
        self.calls += 1;
        let all = self.calls % ALL_ONE_IN == 0;
        let regions = if all { self.regions() } else { call.regions() };
        match difference(call, &expected, &made).or_else(|| regions.into_iter().find_map(|r| self.differs(r))) {
            None => Ok(expected),
            Some(what) => {
                let out = &made.out;
                Err(format!("{what}\n  library: {} {out:?}\n  model:   {} {:?}", made.code, expected.code, expected.numbers))
            }
        }
    }

    fn regions(&self) -> Vec<Region> {
        let mut all = vec![Region::Box, Region::Contacts, Region::Records, Region::Reply];
        all.extend((0..self.connections.len()).flat_map(|i| [Region::Connection(i), Region::Buffer(i)]));
        all.extend((0..self.lookups.len()).map(Region::Lookup));
        all
    }

    /// Compares all memory.
    pub fn all_differs(&self) -> Option<String> {
        self.regions().into_iter().find_map(|r| self.differs(r))
    }

    fn differs(&self, region: Region) -> Option<String> {
        let (lent, model) = (self.host.region(region), self.bytes(region));
        if !lent.stands() {
            return Some(format!("a guard of {region:?} was written over"));
        }
        let library = lent.get();
        if library == model {
            return None;
        }
        if library.len() != model.len() {
            return Some(format!("{region:?} has {} bytes, the model's {}", library.len(), model.len()));
        }
        let at = library.iter().zip(model).position(|(a, b)| a != b)?;
        Some(format!("first differing byte: {region:?} at {at}: library {:02x}, model {:02x}", library[at], model[at]))
    }
}

/// What a call gave, against what it has to give: `out` has the numbers as far as it goes, and after them what it had.
fn difference(call: &Call, expected: &Answer, made: &Made) -> Option<String> {
    let mut out = call.out.clone();
    out.iter_mut().zip(&expected.numbers).for_each(|(there, number)| *there = *number);
    if made.code != expected.code {
        Some("the answers differ".to_string())
    } else if made.out != out {
        Some("the numbers in out differ".to_string())
    } else if made.turns != expected.turns || made.trims != expected.trims {
        Some(format!("the setpoints differ\n  library: {:?} {:?}\n  model:   {:?} {:?}", made.turns, made.trims, expected.turns, expected.trims))
    } else if !made.kept {
        Some("what was lent to be read, or a guard of out or of a list, was written over".to_string())
    } else {
        None
    }
}
