//! Whole sequences of calls.

use super::*;
use crate::contacts::{buckets, in_form, Contact};
use crate::limits;
use crate::lookup::{Candidate, Mark};
use crate::message::{self, encode, Message, Record, View};
use crate::node::Side;
use crate::peer::{Me, Mode};
use crate::place::{bucket, Place};
use crate::recipe::{self, Recipe};
use crate::records;
use crate::steps::{Memory, Step, World};
use crate::stream::Framing;
use crate::wire::Span;
use crate::writer::framed;

/// Makes up calls that fit a world, one after another.
#[derive(Clone, Debug)]
pub struct Source {
    pub rng: Rng,
    pub network: Network,
    pub keys: Vec<Vec<u8>>,
    /// Calls made up already.
    pending: Vec<Step>,
    /// Bytes of each line not handed over yet.
    unsent: Vec<Vec<u8>>,
    sequence: u64,
    /// How often memory is written over by the host itself: one step in this many; 0 for never.
    pub poke_one_in: usize,
}

impl Source {
    pub fn new(seed: u64, peers: usize) -> Source {
        let mut rng = Rng::new(seed);
        let network = Network::new(&mut rng, peers, 30);
        let keys = wind_keys(&mut rng, 12);
        Source { rng, network, keys, pending: vec![], unsent: vec![], sequence: 0, poke_one_in: 0 }
    }

    /// A world to begin with: cleared memory, or memory in form that is made up, with noise where nothing is held unless it is `clean`. Lengths run past
    /// the last whole slot and the least buffer.
    pub fn world(&mut self, contact_slots: usize, record_slots: usize, lines: usize, lookups: usize, made_up: bool, clean: bool) -> World {
        let rng = &mut self.rng;
        let me = Me::start(&id(rng), &address_list(rng)).0;
        let mut world = World::cleared(me, contact_slots, record_slots, lines, lookups);
        if made_up {
            world.contacts = table(rng, &world.me.place, &self.network.ids, contact_slots, clean);
            world.records = store(rng, &self.keys, record_slots, clean);
        }
        let mut lengthen = |bytes: &mut Vec<u8>, most: usize| {
            let n = rng.below(most);
            bytes.extend(rng.bytes(n));
        };
        lengthen(&mut world.contacts, limits::CONTACT_SLOT);
        lengthen(&mut world.records, limits::RECORD_SLOT);
        lengthen(&mut world.reply, 50);
        world.lines.iter_mut().for_each(|line| lengthen(&mut line.buffer, 50));
        world
    }

    fn mode(&mut self) -> Mode {
        if self.rng.one_in(5) {
            Mode::Client
        } else {
            Mode::Server
        }
    }

    fn id(&mut self, world: &World) -> Vec<u8> {
        match self.rng.below(30) {
            0 => odd_id(&mut self.rng),
            1 => world.me.id.clone(),
            _ => self.rng.pick(&self.network.ids).clone(),
        }
    }

    fn any_key(&mut self, world: &World) -> Vec<u8> {
        match self.rng.below(8) {
            0 => odd_key(&mut self.rng),
            1 => key(&mut self.rng),
            2 => world.me.id.clone(),
            3..=4 => self.rng.pick(&self.network.ids).clone(),
            _ => self.rng.pick(&self.keys).clone(),
        }
    }

    /// A record key: often one that is held, so that offers meet what they are compared with.
    fn record_key(&mut self, world: &World) -> Vec<u8> {
        let entries = records::entries(&world.records).unwrap_or_default();
        let held: Vec<&[u8]> = entries.into_iter().flatten().map(|e| e.key).collect();
        match self.rng.below(12) {
            0 => odd_wind_key(&mut self.rng),
            1..=5 if !held.is_empty() => self.rng.pick(&held).to_vec(),
            _ => self.rng.pick(&self.keys).clone(),
        }
    }

    /// A value, mostly with a sequence that rises slowly, so that puts go on being accepted.
    fn value(&mut self) -> Vec<u8> {
        if self.rng.one_in(4) {
            return damaged_recipe(&mut self.rng);
        }
        let mut made = recipe(&mut self.rng);
        self.sequence += self.rng.below(2) as u64;
        made.sequence = match self.rng.below(1_000) {
            0 => u64::MAX,
            1 => self.rng.number(),
            _ => self.sequence + self.rng.below(3) as u64,
        };
        recipe::write(&made)
    }

    /// A value close to the one that is held: the same, one of the other format that goes on as it does, one that goes on after it or ends before it, one with a
    /// byte more, or one with another byte, often one that no value had before request iii.
    fn near_held(&mut self, mut value: Vec<u8>) -> Vec<u8> {
        let end = value.len();
        match self.rng.below(11) {
            0 => {}
            1 => value.extend(recipe::write(&Recipe { format: self.rng.between(1, 2) as u16, sequence: recipe::sequence_of(&value), ..Recipe::default() })),
            2 if end >= 40 => value.truncate(end - *self.rng.pick(&[16, 24])),
            9..=10 => value = self.in_other_format(value),
            3 => value[end - 8] = value[end - 8].wrapping_add(*self.rng.pick(&[1, 255])),
            4 => value[0] = value[0].wrapping_add(*self.rng.pick(&[1, 255])),
            5 => value.insert(0, self.rng.byte()),
            6..=7 if end > VALUE_BEFORE + 16 => value[self.rng.between(VALUE_BEFORE, end - 17)] ^= 1 << self.rng.below(8),
            _ => value[self.rng.below(end)] ^= 1 << self.rng.below(8),
        }
        value
    }

    /// The same fields and sequence in the other format, as far as it can have them: rank is decided by bytes then. The note is as it was, or has another last byte.
    fn in_other_format(&mut self, value: Vec<u8>) -> Vec<u8> {
        let Ok(held) = recipe::read(&value) else { return value };
        let core = if held.format == 1 && self.rng.one_in(2) { held.wrap.clone() } else { vec![] };
        let mut other = Recipe { format: 3 - held.format, core, ..held };
        if let Some(last) = other.note.last_mut() {
            *last = last.wrapping_add(*self.rng.pick(&[0, 1, 255]));
        }
        recipe::write(&other)
    }

    /// A value offered where a leaper is held: the same bytes, or another leaper or a recipe that ranks just below or above, by its sequence or by its bytes.
    fn beside_leaper(&mut self, held: Vec<u8>) -> Vec<u8> {
        let mut made = match self.rng.below(4) {
            0 => return held,
            1 => leaper(&mut self.rng),
            _ => recipe(&mut self.rng),
        };
        let sequence = recipe::sequence_of(&held);
        made.sequence = *self.rng.pick(&[sequence.saturating_sub(1), sequence, sequence.saturating_add(1)]);
        recipe::write(&made)
    }

    /// A value for a key.
    fn value_for(&mut self, world: &World, key: &[u8]) -> Vec<u8> {
        match records::find(&world.records, key) {
            Ok(Some(found)) if recipe::is_leaper(&found.value) && !self.rng.one_in(4) => self.beside_leaper(found.value),
            Ok(Some(found)) if self.rng.one_in(3) => self.near_held(found.value),
            _ => self.value(),
        }
    }

    /// A request as a peer may send it; the requester's own id is a key now and then.
    pub fn request(&mut self, world: &World, requester: &[u8]) -> Vec<u8> {
        let kind = *self.rng.pick(&[0, 0, 0, 0, 1, 1, 4, 4, 4, 5]);
        let mut m = Message { kind, key: self.any_key(world), ..Message::default() };
        if kind == message::FIND_NODE && self.rng.one_in(4) {
            m.key = requester.to_vec();
        }
        if kind == message::PUT_VALUE || kind == message::GET_VALUE && self.rng.one_in(2) {
            m.key = self.record_key(world);
        }
        if kind == message::PUT_VALUE {
            let key = if self.rng.one_in(20) { self.record_key(world) } else { m.key.clone() };
            m.record = if self.rng.one_in(30) { None } else { Some(Record { value: self.value_for(world, &key), key }) };
        }
        match self.rng.below(40) {
            0 => body(&mut self.rng),
            1 => {
                let loose = loose_body(&mut self.rng, &m);
                damaged_body(&mut self.rng, &loose)
            }
            2..=12 => loose_body(&mut self.rng, &m),
            13 => encode(&message(&mut self.rng)),
            14 if self.rng.one_in(2) => filled_body(&m, self.rng.between(limits::BODY - 1, limits::BODY + 1)),
            _ => encode(&m),
        }
    }

    /// A message for a connection: a request, or on the asking side mostly what a peer answers to a lookup.
    fn for_line(&mut self, world: &World, line: usize) -> Vec<u8> {
        let conn = &world.lines[line].conn;
        if conn.side == Side::Serving || self.rng.one_in(6) {
            return self.request(world, &conn.peer.id);
        }
        if self.rng.one_in(4) {
            return body(&mut self.rng);
        }
        let key = world.lookups.first().map(|l| l.key.clone()).unwrap_or_default();
        let m = self.network.answer(&mut self.rng, &conn.peer.id, &key, &world.me.id);
        if self.rng.one_in(3) {
            loose_body(&mut self.rng, &m)
        } else {
            encode(&m)
        }
    }

    /// More bytes for a line: some messages, seldom a bad prefix.
    fn refill(&mut self, world: &World, line: usize) {
        for _ in 0..self.rng.between(1, 4) {
            let body = self.for_line(world, line);
            self.unsent[line].extend(framed(&body));
        }
        if self.rng.one_in(8) {
            let prefix = odd_prefix(&mut self.rng);
            self.unsent[line].extend(prefix);
        }
    }

    fn on_line(&mut self, world: &World) -> Step {
        let line = self.rng.below(world.lines.len());
        self.unsent.resize(world.lines.len(), vec![]);
        let conn = &world.lines[line].conn;
        let dead = conn.framing == Framing::Shut || !conn.in_form(&world.me.place);
        if dead && !self.rng.one_in(10) {
            self.unsent[line].clear();
            let side = if self.rng.one_in(5) { Side::Asking } else { Side::Serving };
            return Step::Open { line, id: self.id(world), mode: self.mode(), addresses: address_list(&mut self.rng), side };
        }
        if self.rng.one_in(40) {
            return Step::End { line };
        }
        if self.unsent[line].is_empty() {
            self.refill(world, line);
        }
        let all = self.unsent[line].len();
        let most = *self.rng.pick(&[0, 1, 3, 64, 500, 4_096, 40_000, 40_000, 40_000]);
        let n = if self.rng.one_in(3) { all } else { self.rng.size(0, most).min(all) };
        Step::Receive { line, piece: self.unsent[line][..n].to_vec() }
    }

    /// What is still to be handed over on a line, in place of what was, and of a call made up already that would have handed over some of that.
    pub fn send(&mut self, line: usize, bytes: Vec<u8>) {
        self.pending.retain(|step| !matches!(step, Step::Receive { line: other, .. } if *other == line));
        self.unsent.resize(self.unsent.len().max(line + 1), vec![]);
        self.unsent[line] = bytes;
    }

    /// Tells how many bytes of a piece were taken, so that the rest is handed over next.
    pub fn taken(&mut self, line: usize, n: usize) {
        self.unsent[line].drain(..n);
    }

    fn on_lookup(&mut self, world: &World) -> Step {
        let lookup = self.rng.below(world.lookups.len());
        let l = &world.lookups[lookup];
        let done = !l.in_form() || l.is_over();
        if done && !self.rng.one_in(3) {
            let concurrency = if self.rng.one_in(10) { *self.rng.pick(&[0, 11, 256, 259, (1 << 32) + 3, u64::MAX]) } else { self.rng.between(1, 10) as u64 };
            return Step::Start { lookup, key: self.any_key(world), concurrency };
        }
        let flying: Vec<&Candidate> = l.candidates.iter().filter(|c| c.mark == Mark::InFlight).collect();
        if (flying.is_empty() && !done) || self.rng.one_in(2) {
            return Step::Next { lookup };
        }
        let sender = if flying.is_empty() || self.rng.one_in(12) { self.id(world) } else { self.rng.pick(&flying).id.clone() };
        if self.rng.one_in(8) {
            return Step::Failure { lookup, sender };
        }
        self.reply(world, lookup, sender)
    }

    fn reply(&mut self, world: &World, lookup: usize, sender: Vec<u8>) -> Step {
        let mut m = self.network.answer(&mut self.rng, &sender, &world.lookups[lookup].key, &world.me.id);
        if self.rng.one_in(12) {
            m.kind = self.rng.below(6) as u64;
        }
        if self.rng.one_in(6) {
            m.record = message(&mut self.rng).record;
        }
        let body = if self.rng.one_in(3) { loose_body(&mut self.rng, &m) } else { encode(&m) };
        let mut view = message::read(&body).unwrap_or(View { kind: 4, key: Span::default(), record: None });
        match self.rng.below(60) {
            0 => view.kind = self.rng.below(7) as u64,
            1 => view.key = Span { at: self.rng.below(9), len: self.rng.below(3) },
            2 => view.record = Some(message::RecordView { key: Span::default(), value: Span::default() }),
            // the last occurrence of the record alone, as though it were all of it
            3..=9 => view.record = message::occurrences(&body).last().and_then(|last| message::record_view(&body, &[*last])),
            _ => {}
        }
        Step::Reply { lookup, sender, body, view }
    }

    fn on_contacts(&mut self, world: &World) -> Step {
        let (id, mode, addresses) = (self.id(world), self.mode(), address_list(&mut self.rng));
        match self.rng.below(16) {
            0..=1 => Step::Nearest { key: self.any_key(world) },
            2 => Step::Remove { id },
            3..=4 => Step::Doubt { id: self.held(world).unwrap_or(id) },
            5..=7 => {
                let (head, newcomer) = self.head_and_newcomer(world).unwrap_or((self.id(world), id));
                Step::Settle { head, newcomer, mode, addresses, answered: self.rng.one_in(2) }
            }
            _ => Step::Seen { id, mode, addresses },
        }
    }

    /// Mostly somebody who is held, now and then the head of a bucket.
    fn held(&mut self, world: &World) -> Option<Vec<u8>> {
        if !in_form(&world.contacts, &world.me.place) || self.rng.one_in(4) {
            return None;
        }
        let of_buckets: Vec<Vec<Contact>> = buckets(&world.contacts, &world.me.place).into_values().collect();
        let heads = self.rng.one_in(4);
        let some: Vec<&Contact> = of_buckets.iter().flat_map(|b| if heads { &b[..1] } else { &b[..] }).collect();
        if some.is_empty() {
            None
        } else {
            Some(self.rng.pick(&some).id.clone())
        }
    }

    /// Mostly the head of a full bucket, and a peer of that bucket that isn't held; now and then another contact of it, or any peer.
    fn head_and_newcomer(&mut self, world: &World) -> Option<(Vec<u8>, Vec<u8>)> {
        if !in_form(&world.contacts, &world.me.place) {
            return None;
        }
        let buckets = buckets(&world.contacts, &world.me.place);
        let full: Vec<(&usize, &Vec<Contact>)> = buckets.iter().filter(|(_, b)| b.len() == limits::NEAREST).collect();
        if full.is_empty() || self.rng.one_in(6) {
            return None;
        }
        let (number, contacts) = *self.rng.pick(&full);
        let head = if self.rng.one_in(8) { self.rng.pick(contacts) } else { &contacts[0] };
        let fits = |id: &Vec<u8>, place: &Place| bucket(place, &world.me.place) == *number && contacts.iter().all(|c| c.place != *place && c.id != *id);
        let newcomer = match self.rng.below(8) {
            0 => None,
            1 => Some(self.rng.pick(contacts).id.clone()),
            _ => self.network.some(&mut self.rng, fits),
        };
        Some((head.id.clone(), newcomer.unwrap_or_else(|| self.id(world))))
    }

    fn stays_in_form(&self, world: &World, memory: Memory, at: usize, byte: u8) -> bool {
        let mut poked = world.clone();
        poked.run(&Step::Poke { memory, at, byte });
        in_form(&poked.contacts, &world.me.place) && records::in_form(&poked.records)
    }

    /// A byte of memory is written over. Where that breaks the form, it is set back after one call: none but that byte has changed then.
    fn poke(&mut self, world: &World) -> Step {
        let (memory, bytes, (at, byte)) = match self.rng.below(3) {
            0 if world.contacts.len() >= limits::CONTACT_SLOT => (Memory::Contacts, &world.contacts, table_damage(&mut self.rng, &world.contacts)),
            1 if world.records.len() >= limits::RECORD_SLOT => (Memory::Records, &world.records, store_damage(&mut self.rng, &world.records)),
            _ => {
                let at = self.rng.below(limits::REPLY);
                (Memory::Reply, &world.reply, (at, self.rng.byte()))
            }
        };
        let before = bytes.get(at).copied().unwrap_or(0);
        if !self.stays_in_form(world, memory, at, byte) {
            self.pending.push(Step::Poke { memory, at, byte: before });
            let call = self.call(world);
            self.pending.push(call);
        }
        Step::Poke { memory, at, byte }
    }

    /// A buffer is lent too short, and long enough again after one call.
    fn short(&mut self, world: &World) -> Step {
        let (memory, least) = match self.rng.below(world.lines.len() + 1) {
            0 => (Memory::Reply, limits::REPLY),
            line => (Memory::Buffer(line - 1), limits::BODY),
        };
        self.pending.push(Step::Lend { memory, length: least + self.rng.below(2) });
        let call = self.call(world);
        self.pending.push(call);
        Step::Lend { memory, length: if self.rng.one_in(3) { 0 } else { least - 1 } }
    }

    /// A value to be read: one that is held, or a made-up one.
    fn value_to_read(&mut self, world: &World) -> Vec<u8> {
        let held = records::entries(&world.records).unwrap_or_default().into_iter().flatten().collect::<Vec<_>>();
        if held.is_empty() || !self.rng.one_in(4) {
            value_to_read(&mut self.rng)
        } else {
            self.rng.pick(&held).value.to_vec()
        }
    }

    /// Lists for a recipe's setpoints, of any lengths: mostly about as long as there are setpoints.
    fn recipe_setpoints(&mut self, world: &World) -> Step {
        let (value, core) = (self.value_to_read(world), self.rng.one_in(2));
        let count = recipe::read(&value).map_or(2, |recipe| recipe.lists()[usize::from(!core)].len());
        let mut room = || match self.rng.below(5) {
            0 => self.rng.below(3),
            1 => self.rng.below(count + 1),
            2 => count,
            _ => count + self.rng.below(3),
        };
        let (turns, trims) = (room(), room());
        let noise = |rng: &mut Rng, n: usize| (0..n).map(|_| rng.number()).collect::<Vec<u64>>();
        let turns = noise(&mut self.rng, turns).into_iter().map(|n| n as u32).collect();
        let trims = noise(&mut self.rng, trims).into_iter().map(|n| n as i32).collect();
        Step::RecipeSetpoints { value, core, turns, trims }
    }

    fn call(&mut self, world: &World) -> Step {
        match self.rng.below(22) {
            20 => Step::RecipeRead { value: self.value_to_read(world) },
            21 if self.rng.one_in(2) => self.recipe_setpoints(world),
            21 => Step::RecipeWrite { fields: fields(&mut self.rng) },
            0 => Step::Read { body: body(&mut self.rng) },
            1 => Step::Write { message: message_to_write(&mut self.rng) },
            2 => Step::Find { key: if self.rng.one_in(4) { self.any_key(world) } else { self.record_key(world) } },
            3..=4 => {
                let key = self.record_key(world);
                Step::Put { value: self.value_for(world, &key), key }
            }
            5..=9 => self.on_contacts(world),
            10..=13 if !world.lookups.is_empty() => self.on_lookup(world),
            _ if !world.lines.is_empty() => self.on_line(world),
            _ => self.on_contacts(world),
        }
    }

    /// The next call. After a receive, say with `taken` how many bytes it took.
    pub fn step(&mut self, world: &World) -> Step {
        if let Some(step) = self.pending.pop() {
            return step;
        }
        if self.poke_one_in > 0 && self.rng.one_in(self.poke_one_in) {
            return if self.rng.one_in(4) { self.short(world) } else { self.poke(world) };
        }
        self.call(world)
    }
}
