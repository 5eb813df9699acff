//! What a host does with a world, one action after another: the model's own sequence of calls, and beside it what only bytes and numbers can say: memory
//! too short, boxes, connections and lookups out of form, `out` of any length, odd views and lists, walks over peers.

use crate::answer::{view_numbers, Answer};
use crate::calls::{Call, Region};
use crate::layout;
use crate::twin::Twin;
use starterbell_model::contacts::{self, contact, in_form};
use starterbell_model::gen::{self, Rng, Source, VALUE_BEFORE};
use starterbell_model::limits::{BODY, CONTACT_SLOT, RECORD_SLOT, REPLY, VALUE};
use starterbell_model::lookup::{Lookup, Mark};
use starterbell_model::message::{self, encode, Message, View};
use starterbell_model::node::Side;
use starterbell_model::peer::Mode;
use starterbell_model::recipe::{self, Fields};
use starterbell_model::records;
use starterbell_model::steps::{Memory, Step};
use starterbell_model::wire::Span;
use starterbell_model::writer::{framed, peer_list, peers_of};

#[derive(Clone, Debug)]
pub enum Action {
    Call(Call),
    /// The host writes into its own memory.
    Write {
        region: Region,
        at: usize,
        bytes: Vec<u8>,
    },
    /// The host lends so many bytes from now on.
    Lend {
        memory: Memory,
        length: usize,
    },
}

pub struct Script {
    pub rng: Rng,
    pub source: Source,
    /// The box as it was started first.
    home: Vec<u8>,
    /// What comes after how many calls.
    later: Vec<(usize, Action)>,
}

fn region_of(memory: Memory) -> Region {
    match memory {
        Memory::Contacts => Region::Contacts,
        Memory::Records => Region::Records,
        Memory::Reply => Region::Reply,
        Memory::Buffer(line) => Region::Buffer(line),
    }
}

/// The view that numbers are: the reader's own for the body, or one that no body has. Missing numbers are 0, and any but 0 says that there is a record.
fn view_meant(numbers: &[u64], body: &[u8]) -> View {
    let mut eight: Vec<u64> = numbers.iter().copied().chain([0; 8]).take(8).collect();
    eight[3] = u64::from(eight[3] != 0);
    match message::read(body) {
        Ok(view) if view_numbers(&view) == eight => view,
        _ => View { kind: u64::MAX, key: Span::default(), record: None },
    }
}

impl Script {
    pub fn new(rng: Rng, source: Source, twin: &Twin) -> Script {
        Script { rng, source, home: twin.bytes(Region::Box)[..layout::BOX].to_vec(), later: vec![] }
    }

    /// After some calls the box is as it was at first.
    fn home_after(&mut self, calls: usize) {
        self.later.push((calls, Action::Write { region: Region::Box, at: 0, bytes: self.home.clone() }));
    }

    /// The next action.
    pub fn next(&mut self, twin: &Twin) -> Action {
        if let Some(i) = self.later.iter().position(|(calls, _)| *calls == 0) {
            return self.later.remove(i).1;
        }
        let action = if self.rng.one_in(15) {
            self.odd(twin)
        } else {
            let step = self.source.step(&twin.world);
            self.action(step)
        };
        if matches!(action, Action::Call(_)) {
            self.later.iter_mut().for_each(|(calls, _)| *calls -= 1);
        }
        action
    }

    fn action(&mut self, step: Step) -> Action {
        match step {
            Step::Poke { memory, at, byte } => Action::Write { region: region_of(memory), at, bytes: vec![byte] },
            Step::Lend { memory, length } => Action::Lend { memory, length },
            step => Action::Call(self.call(step)),
        }
    }

    /// What comes of a call: the bytes that were taken, a message that may be given to a lookup, a head that is probed.
    pub fn after(&mut self, twin: &Twin, call: &Call, answer: &Answer) {
        match &call.step {
            Step::Receive { line, .. } => self.after_receive(twin, *line, answer),
            Step::Seen { id, .. } if answer.code == 13 && self.rng.one_in(2) => {
                let head = contact(&twin.world.contacts, answer.numbers[0] as usize).id;
                let mode = if self.rng.one_in(6) { Mode::Client } else { Mode::Server };
                let (addresses, answered) = (gen::address_list(&mut self.rng), self.rng.one_in(2));
                let call = self.call(Step::Settle { head, newcomer: id.clone(), mode, addresses, answered });
                self.later.push((self.rng.below(3), Action::Call(call)));
            }
            _ => {}
        }
    }

    fn after_receive(&mut self, twin: &Twin, line: usize, answer: &Answer) {
        self.source.taken(line, answer.numbers[0] as usize);
        if answer.code == 66 && !twin.world.lookups.is_empty() && self.rng.one_in(2) {
            let line = &twin.world.lines[line];
            let body = line.buffer[..answer.numbers[1] as usize].to_vec();
            let lookup = self.rng.below(twin.world.lookups.len());
            let view = view_meant(&answer.numbers[4..], &body);
            let step = Step::Reply { lookup, sender: line.conn.peer.id.clone(), body, view };
            let call = self.call(step);
            self.later.push((0, Action::Call(call)));
        }
    }

    // ---- how a call is made

    fn call(&mut self, step: Step) -> Call {
        let mut call = Call::plain(step);
        call.yes = *self.rng.pick(&[1, 1, 1, 2, 256, 0x8000_0000, u32::MAX]);
        let room = if self.rng.one_in(3) { self.rng.below(30) } else { 26 };
        let first = self.rng.number();
        call.out = (0..room as u64).map(|i| first.wrapping_mul(2 * i + 1)).collect();
        if self.rng.one_in(40) {
            self.cut(&mut call);
        }
        match &mut call.step {
            Step::Reply { body, view, .. } => {
                call.view = view_numbers(view);
                self.vary_view(&mut call.view);
                *view = view_meant(&call.view, body);
            }
            Step::Write { message } => call.lists = self.lists(message),
            Step::RecipeWrite { fields } => call.lent.reply = self.room_for(fields),
            _ => {}
        }
        call
    }

    /// Lends less of something.
    fn cut(&mut self, call: &mut Call) {
        let regions = call.regions();
        if regions.is_empty() {
            return;
        }
        let rng = &mut self.rng;
        let part = |rng: &mut Rng, slot: usize| (rng.below(8) * slot + *rng.pick(&[0, 1, slot - 1])).saturating_sub(rng.below(2));
        match rng.pick(&regions) {
            Region::Box => call.lent.me = *rng.pick(&[0, 1, 615, 616, 617]),
            Region::Connection(_) => call.lent.state = *rng.pick(&[0, 617, 639, 640, 641]),
            Region::Lookup(_) => call.lent.state = *rng.pick(&[0, 168, 25_255, 25_256, 25_257]),
            Region::Contacts => call.lent.contacts = part(rng, CONTACT_SLOT),
            Region::Records => call.lent.records = part(rng, RECORD_SLOT),
            Region::Reply => call.lent.reply = *rng.pick(&[0, 1, REPLY - 1, REPLY]),
            Region::Buffer(_) => call.lent.buffer = *rng.pick(&[0, 1, BODY - 1, BODY]),
        }
    }

    /// How many bytes are lent for a recipe to be written: about as many as it has, more, or hardly any.
    fn room_for(&mut self, fields: &Fields) -> usize {
        let length = recipe::write_fields(fields).map_or(100, |value| value.len());
        match self.rng.below(8) {
            0 => self.rng.below(2),
            1 => self.rng.below(length),
            2 => length - 1,
            3 => length,
            4 => length + 1,
            _ => usize::MAX,
        }
    }

    /// Another way to say a view, or another view.
    fn vary_view(&mut self, view: &mut Vec<u64>) {
        let rng = &mut self.rng;
        match rng.below(40) {
            0 => view.truncate(rng.below(9)),
            1 => view.extend([rng.number(), 0]),
            2 => view[3] *= rng.number() | 1,
            3 => view[3] = 1 - view[3].min(1),
            4 => {
                let i = rng.below(8);
                view[i] = view[i].wrapping_add(*rng.pick(&[1, u64::MAX, 1 << 32]));
            }
            _ => {}
        }
    }

    /// The lists of a message to be written, now and then damaged; the message is then what they say.
    fn lists(&mut self, message: &mut Message) -> [Vec<u8>; 4] {
        let rng = &mut self.rng;
        let mut list = |peers: &[message::Peer]| {
            let bytes = peer_list(peers);
            if rng.one_in(8) {
                gen::damaged_body(rng, &bytes)
            } else {
                bytes
            }
        };
        let (closer, providers) = (list(&message.closer), list(&message.providers));
        message.closer = peers_of(&closer);
        message.providers = peers_of(&providers);
        let (key, value) = (gen::odd_key(rng), gen::odd_id(rng));
        [closer, providers, key, value]
    }

    // ---- what only bytes can say

    fn odd(&mut self, twin: &Twin) -> Action {
        let (lines, lookups) = (twin.world.lines.len(), twin.world.lookups.len());
        match self.rng.below(29) {
            27..=28 => self.write_length(twin),
            26 if lines > 0 => self.odd_sender(lines),
            23..=25 => self.write_doubt(twin),
            21..=22 => self.hold_leaper(twin),
            20 if lines > 0 => {
                let (line, at, n) = (self.rng.below(lines), self.rng.below(200), self.rng.between(1, 40));
                Action::Write { region: Region::Buffer(line), at, bytes: self.rng.bytes(n) }
            }
            18 => self.spoil(twin, Region::Contacts, CONTACT_SLOT),
            19 => self.spoil(twin, Region::Records, RECORD_SLOT),
            16 if lines > 0 => {
                let line = self.rng.below(lines);
                Action::Call(self.call(Step::End { line }))
            }
            0..=1 => self.poke_box(twin),
            2 => self.restart(twin),
            3..=5 if lines > 0 => {
                let region = Region::Connection(self.rng.below(lines));
                self.poke_connection(twin, region)
            }
            6..=8 if lookups > 0 => {
                let region = Region::Lookup(self.rng.below(lookups));
                self.poke_lookup(twin, region)
            }
            9 | 17 if lookups > 0 => self.new_lookup(lookups),
            10..=13 => {
                let step = self.walk_peers();
                Action::Call(self.call(step))
            }
            _ => {
                let step = self.walk_addresses();
                Action::Call(self.call(step))
            }
        }
    }

    /// A slot stands twice, or a contact has our place. Where that breaks the form it is set back after two calls: nothing else has changed then.
    fn spoil(&mut self, twin: &Twin, region: Region, slot: usize) -> Action {
        let bytes = twin.bytes(region);
        let slots = (bytes.len() / slot).min(300);
        if slots < 2 {
            return Action::Call(self.call(Step::Find { key: vec![] }));
        }
        let (from, to) = (self.rng.below(slots) * slot, self.rng.below(slots) * slot);
        let mut spoiled = bytes.to_vec();
        spoiled.copy_within(from..from + slot, to);
        if region == Region::Contacts && self.rng.one_in(3) {
            spoiled[to + 8..to + 40].copy_from_slice(&twin.world.me.place);
        }
        let fits = if region == Region::Contacts { in_form(&spoiled, &twin.world.me.place) } else { records::in_form(&spoiled) };
        if !fits {
            self.later.push((2, Action::Write { region, at: to, bytes: bytes[to..to + slot].to_vec() }));
        }
        Action::Write { region, at: to, bytes: spoiled[to..to + slot].to_vec() }
    }

    /// A slot's byte of doubt is written over: with a mark, or with a number that says nothing in a free slot and in a used one breaks the form. Then it is set
    /// back after two calls: nothing else has changed then.
    fn write_doubt(&mut self, twin: &Twin) -> Action {
        let table = &twin.world.contacts;
        let slots = contacts::slots(table);
        if slots == 0 {
            let id = self.rng.pick(&self.source.network.ids).clone();
            return Action::Call(self.call(Step::Doubt { id }));
        }
        let slot = self.rng.below(slots) * CONTACT_SLOT;
        let byte = *self.rng.pick(&[0, 1, 1, 2, 2, 3, 128, 255]);
        if table[slot] != 0 && byte > 1 {
            self.later.push((2, Action::Write { region: Region::Contacts, at: slot + 1, bytes: vec![table[slot + 1]] }));
        }
        Action::Write { region: Region::Contacts, at: slot + 1, bytes: vec![byte] }
    }

    /// The length of a held value is written over with one at a limit, that of now or that before request iii: more or fewer of the slot's bytes are the value then.
    /// Where that breaks the form it is set back after two calls: nothing else has changed then.
    fn write_length(&mut self, twin: &Twin) -> Action {
        let store = &twin.world.records;
        let used: Vec<usize> = (0..records::slots(store)).map(|i| i * RECORD_SLOT).filter(|slot| store[*slot] != 0).collect();
        if used.is_empty() {
            return Action::Call(self.call(Step::Find { key: vec![] }));
        }
        let at = self.rng.pick(&used) + 2;
        let lengths = [VALUE_BEFORE, VALUE_BEFORE + 1, VALUE - 1, VALUE, VALUE, VALUE + 1, VALUE + 1, VALUE + 1, VALUE + 256];
        let bytes = (*self.rng.pick(&lengths) as u16).to_le_bytes().to_vec();
        let mut written = store.clone();
        written[at..at + 2].copy_from_slice(&bytes);
        if !records::in_form(&written) {
            self.later.push((2, Action::Write { region: Region::Records, at, bytes: store[at..at + 2].to_vec() }));
        }
        Action::Write { region: Region::Records, at, bytes }
    }

    /// A leaper is held from now on, as one from before request ix is: in the slot that holds its key, or else in any.
    fn hold_leaper(&mut self, twin: &Twin) -> Action {
        let store = &twin.world.records;
        let key = self.rng.pick(&self.source.keys).clone();
        match (records::find(store, &key), records::slots(store)) {
            (Ok(found), slots @ 1..) => {
                let slot = found.map_or_else(|| self.rng.below(slots), |found| found.slot);
                let bytes = records::slot_bytes(&key, &gen::leaper_value(&mut self.rng));
                Action::Write { region: Region::Records, at: slot * RECORD_SLOT, bytes }
            }
            _ => Action::Call(self.call(Step::Find { key })),
        }
    }

    /// A byte of the box is written over, and set back some calls later.
    fn poke_box(&mut self, twin: &Twin) -> Action {
        let rng = &mut self.rng;
        let (at, byte, calls) = match rng.below(8) {
            0..=1 => (2, *rng.pick(&[0, 1, 64, 65, 255]), 3),
            2 => (3, *rng.pick(&[0, 1, 4, 5, 255]), 60),
            3 => (rng.between(4, 7), *rng.pick(&[0, 1, 127, 128, 129, 255]), 60),
            4 => (rng.between(8, 39), rng.byte(), 2),
            5 => (rng.between(40, 103), rng.byte(), 20),
            6 => (rng.between(104, 615), rng.byte(), 20),
            _ => (rng.below(2), rng.byte(), 20),
        };
        self.home_after(calls);
        if at == 2 && !twin.world.lookups.is_empty() {
            let step = Step::Start { lookup: 0, key: gen::key(&mut self.rng), concurrency: 3 };
            let call = self.call(step);
            self.later.push((0, Action::Call(call)));
        }
        Action::Write { region: Region::Box, at, bytes: vec![byte] }
    }

    /// The box is started again: with an id that is refused, with its own and other addresses, or as another box for a few calls.
    fn restart(&mut self, twin: &Twin) -> Action {
        let id = match self.rng.below(4) {
            0 => gen::odd_id(&mut self.rng),
            1 => gen::id(&mut self.rng),
            _ => twin.world.me.id.clone(),
        };
        let addresses = gen::address_list(&mut self.rng);
        if id != twin.world.me.id {
            self.home_after(3);
        }
        Action::Call(self.call(Step::Box { id, addresses }))
    }

    fn poke_connection(&mut self, twin: &Twin, region: Region) -> Action {
        let rng = &mut self.rng;
        if rng.one_in(8) {
            return Action::Write { region, at: 8, bytes: twin.world.me.place.to_vec() };
        }
        if rng.one_in(3) {
            let bytes = layout::framing_bytes(&gen::odd_framing(rng)).to_vec();
            return Action::Write { region, at: layout::FRAMING, bytes };
        }
        let (at, byte) = match rng.below(11) {
            9..=10 => (1, *rng.pick(&[1, 1, 2, 255])),
            0 => (2, *rng.pick(&[0, 1, 64, 65, 255])),
            1 => (3, *rng.pick(&[0, 1, 4, 5, 255])),
            2 => (rng.between(4, 7), *rng.pick(&[0, 1, 128, 129, 255])),
            3 => (rng.between(616, 617), *rng.pick(&[0, 1, 2, 255])),
            4 => (618, *rng.pick(&[0, 1, 2, 3, 255])),
            5 => (619, rng.below(4) as u8),
            6 => (rng.between(620, 625), rng.byte()),
            7 => (rng.between(8, 40), rng.byte()),
            _ => (rng.below(layout::CONNECTION), rng.byte()),
        };
        Action::Write { region, at, bytes: vec![byte] }
    }

    /// A connection is opened, and gets a count and lengths of addresses that no open gives. Then its peer, which isn't held, asks for itself, and may join.
    fn odd_sender(&mut self, lines: usize) -> Action {
        let rng = &mut self.rng;
        let (line, id) = (rng.below(lines), gen::id(rng));
        let open = Step::Open { line, id: id.clone(), mode: Mode::Server, addresses: gen::address_list(rng), side: Side::Serving };
        let mut numbers = vec![*rng.pick(&[1, 2, 3, 4, 5, 255])];
        numbers.extend((0..4).map(|_| *rng.pick(&[0, 1, 127, 128, 129, 255])));
        let asks = framed(&encode(&Message { kind: message::FIND_NODE, key: id, ..Message::default() }));
        self.source.send(line, asks.clone());
        self.later.push((1, Action::Write { region: Region::Connection(line), at: 3, bytes: numbers }));
        let call = self.call(Step::Receive { line, piece: asks });
        self.later.push((1, Action::Call(call)));
        Action::Call(self.call(open))
    }

    fn poke_lookup(&mut self, twin: &Twin, region: Region) -> Action {
        let count = usize::from(twin.bytes(region)[0]) + 1;
        let rng = &mut self.rng;
        let base = 168 + 98 * rng.below(count.min(256));
        let (at, byte) = match rng.below(10) {
            0 => (rng.below(2), *rng.pick(&[0, 1, 2, 20, 255])),
            1 => (2, *rng.pick(&[0, 1, 128, 129, 255])),
            2 => (3, *rng.pick(&[0, 1, 2, 10, 11, 255])),
            3 => (rng.between(4, 7), *rng.pick(&[0, 1, 2, 255])),
            4..=5 => (base, *rng.pick(&[0, 1, 1, 2, 3, 4, 255])),
            6 => (base + 1, *rng.pick(&[0, 1, 64, 65, 255])),
            7 => (base + rng.between(66, 97), rng.byte()),
            8 => (rng.between(8, 167), rng.byte()),
            _ => (base + rng.below(98), rng.byte()),
        };
        Action::Write { region, at, bytes: vec![byte] }
    }

    /// A lookup is written over with a made-up one, and some of those in flight report.
    fn new_lookup(&mut self, lookups: usize) -> Action {
        let rng = &mut self.rng;
        let lookup = rng.below(lookups);
        let count = if rng.one_in(5) { *rng.pick(&[254, 255, 256, 256, 256, 257]) } else { *rng.pick(&[0, 1, 5, 19, 20, 21, 40]) };
        let ids = &self.source.network.ids;
        let made: Lookup = if rng.one_in(4) { gen::odd_lookup(rng, ids) } else { gen::lookup_of(rng, ids, count) };
        let bytes = self.noisy(&made);
        let flying = made.candidates.iter().filter(|c| c.mark == Mark::InFlight);
        for (i, sender) in flying.map(|c| c.id.clone()).take(self.rng.below(4)).enumerate() {
            let mut m = self.source.network.answer(&mut self.rng, &sender, &made.key, b"ours");
            m.closer.truncate(*self.rng.pick(&[0, 0, 1, 25]));
            let body = encode(&m);
            let view = view_meant(&[], &body);
            let failed = self.rng.one_in(2);
            let step = if failed { Step::Failure { lookup, sender } } else { Step::Reply { lookup, sender, view: message::read(&body).unwrap_or(view), body } };
            let call = self.call(step);
            self.later.push((i, Action::Call(call)));
        }
        Action::Write { region: Region::Lookup(lookup), at: 0, bytes }
    }

    /// A lookup's bytes, half of the time with noise where nothing is said.
    fn noisy(&mut self, made: &Lookup) -> Vec<u8> {
        let rng = &mut self.rng;
        let mut bytes = layout::lookup_bytes(made);
        if rng.one_in(2) {
            return bytes;
        }
        for at in 5..layout::LOOKUP {
            let said = match at {
                5..=7 => false,
                8..=135 => at - 8 < made.key.len(),
                136..=167 => true,
                _ => made.candidates.get((at - 168) / 98).is_some_and(|c| !(2 + c.id.len()..66).contains(&((at - 168) % 98))),
            };
            if !said {
                bytes[at] = (at as u8).wrapping_mul(37) ^ made.place[at % 32];
            }
        }
        bytes
    }

    // ---- walks over the peers of a message

    fn body_with_peers(&mut self) -> Vec<u8> {
        let rng = &mut self.rng;
        if rng.one_in(3) {
            return gen::body(rng);
        }
        let sender = rng.pick(&self.source.network.ids).clone();
        let mut m = self.source.network.answer(rng, &sender, b"key", b"ours");
        m.closer.truncate(rng.below(25));
        m.providers = gen::message(rng).providers;
        m.closer.extend(gen::message(rng).closer);
        if rng.one_in(3) {
            // around the eight that one call tells, which a box that keeps to the rules never sends
            let addresses = (0..rng.between(7, 20)).map(|_| rng.size(0, 20)).collect::<Vec<_>>();
            let addresses = addresses.into_iter().map(|n| rng.bytes(n)).collect();
            m.closer.insert(rng.below(m.closer.len() + 1), message::Peer { addresses, ..message::Peer::default() });
        }
        let loose = gen::loose_body(rng, &m);
        if rng.one_in(4) {
            gen::damaged_body(rng, &loose)
        } else {
            loose
        }
    }

    fn walk_peers(&mut self) -> Step {
        let body = self.body_with_peers();
        let rng = &mut self.rng;
        let providers = rng.one_in(2);
        let entries = if providers { message::provider_peers(&body) } else { message::closer_peers(&body) };
        let from = match rng.below(8) {
            0 => rng.below(body.len() + 2),
            1 => *rng.pick(&[usize::MAX, usize::MAX - 4, body.len(), 1 << 32]),
            2..=3 => 0,
            _ if entries.is_empty() => 0,
            _ => rng.pick(&entries).entry.end(),
        };
        Step::Peer { body, providers, from }
    }

    fn walk_addresses(&mut self) -> Step {
        let body = self.body_with_peers();
        let rng = &mut self.rng;
        let entries = [message::closer_peers(&body), message::provider_peers(&body)].concat();
        let far = [usize::MAX, usize::MAX - 4, body.len(), 1 << 32];
        if entries.is_empty() || rng.one_in(5) {
            let mut any = || if rng.one_in(4) { *rng.pick(&far) } else { rng.below(body.len() + 2) };
            let (start, end, from) = (any(), any(), any());
            return Step::Address { body, start, end, from };
        }
        let full: Vec<_> = entries.iter().filter(|p| !p.addresses.is_empty()).collect();
        let peer = if full.is_empty() || rng.one_in(5) { rng.pick(&entries) } else { rng.pick(&full) };
        let from = match rng.below(6) {
            0 => rng.below(body.len() + 2),
            1 => *rng.pick(&far),
            2..=3 => rng.below(2) * peer.entry.at,
            _ => peer.addresses.first().map_or(0, Span::end),
        };
        let (start, end) = (peer.entry.at, peer.entry.end());
        Step::Address { body, start, end, from }
    }
}
