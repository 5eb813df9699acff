//! The library's side: all memory of a host, and its calls.

use crate::calls::{Call, Lent, Region};
use crate::memory::{Guarded, Inputs};
use starterbell::raw;
use starterbell_model::node::Side;
use starterbell_model::peer::Mode;
use starterbell_model::recipe::Fields;
use starterbell_model::steps::Step;

#[derive(Clone)]
pub struct Host {
    pub me: Guarded<u8>,
    pub contacts: Guarded<u8>,
    pub records: Guarded<u8>,
    pub reply: Guarded<u8>,
    pub connections: Vec<Guarded<u8>>,
    pub buffers: Vec<Guarded<u8>>,
    pub lookups: Vec<Guarded<u8>>,
}

/// What a call gave: its number, `out`, the lists that were lent for setpoints, and whether nothing was written into what was lent to be read, nor around `out`
/// and the lists.
pub struct Made {
    pub code: u32,
    pub out: Vec<u64>,
    pub turns: Vec<u32>,
    pub trims: Vec<i32>,
    pub kept: bool,
}

impl Host {
    pub fn region(&self, region: Region) -> &Guarded<u8> {
        match region {
            Region::Box => &self.me,
            Region::Contacts => &self.contacts,
            Region::Records => &self.records,
            Region::Reply => &self.reply,
            Region::Connection(line) => &self.connections[line],
            Region::Buffer(line) => &self.buffers[line],
            Region::Lookup(lookup) => &self.lookups[lookup],
        }
    }

    pub fn region_mut(&mut self, region: Region) -> &mut Guarded<u8> {
        match region {
            Region::Box => &mut self.me,
            Region::Contacts => &mut self.contacts,
            Region::Records => &mut self.records,
            Region::Reply => &mut self.reply,
            Region::Connection(line) => &mut self.connections[line],
            Region::Buffer(line) => &mut self.buffers[line],
            Region::Lookup(lookup) => &mut self.lookups[lookup],
        }
    }

    pub fn call(&mut self, call: &Call) -> Made {
        if let Step::RecipeSetpoints { value, core, turns, trims } = &call.step {
            return recipe_setpoints(value, call.says(*core), turns, trims, &call.out);
        }
        let mut out = Guarded::of(&call.out);
        let (code, kept) = match &call.step {
            Step::Box { .. } | Step::Open { .. } | Step::Receive { .. } | Step::End { .. } => self.on_connection(call, &mut out),
            Step::Seen { .. } | Step::Settle { .. } | Step::Remove { .. } | Step::Doubt { .. } | Step::Nearest { .. } => self.on_contacts(call, &mut out),
            Step::Start { .. } | Step::Next { .. } | Step::Reply { .. } | Step::Failure { .. } => self.on_lookup(call, &mut out),
            _ => self.on_others(call, &mut out),
        };
        Made { code, kept: kept && out.stands(), out: out.get().to_vec(), turns: vec![], trims: vec![] }
    }

    fn on_connection(&mut self, call: &Call, out: &mut Guarded<u64>) -> (u32, bool) {
        let (lent, out) = (&call.lent, out.lend(usize::MAX));
        let me = self.me.lend(lent.me);
        match &call.step {
            Step::Box { id, addresses } => {
                let given = Inputs::of([id, addresses]);
                (raw::start(me, given.at(0), given.at(1)), given.stand())
            }
            Step::Open { line, id, mode, addresses, side } => {
                let given = Inputs::of([id, addresses]);
                let (server, asking) = (call.says(*mode == Mode::Server), call.says(*side == Side::Asking));
                (raw::open(me, self.connections[*line].lend(lent.state), given.at(0), server, asking, given.at(1)), given.stand())
            }
            Step::Receive { line, piece } => {
                let given = Inputs::of([piece]);
                let connection = self.connections[*line].lend(lent.state);
                let (contacts, records) = (self.contacts.lend(lent.contacts), self.records.lend(lent.records));
                let (buffer, reply) = (self.buffers[*line].lend(lent.buffer), self.reply.lend(lent.reply));
                (raw::receive(me, connection, buffer, given.at(0), contacts, records, reply, out), given.stand())
            }
            Step::End { line } => (raw::end(me, self.connections[*line].lend(lent.state)), true),
            _ => unreachable!("not on a connection"),
        }
    }

    fn on_contacts(&mut self, call: &Call, out: &mut Guarded<u64>) -> (u32, bool) {
        let (lent, out) = (&call.lent, out.lend(usize::MAX));
        let (me, contacts) = (self.me.lend(lent.me), self.contacts.lend(lent.contacts));
        match &call.step {
            Step::Seen { id, mode, addresses } => {
                let given = Inputs::of([id, addresses]);
                (raw::seen(me, contacts, given.at(0), call.says(*mode == Mode::Client), given.at(1), out), given.stand())
            }
            Step::Settle { head, newcomer, mode, addresses, answered } => {
                let given = Inputs::of([head, newcomer, addresses]);
                let client = call.says(*mode == Mode::Client);
                (raw::settle(me, contacts, given.at(0), given.at(1), client, given.at(2), call.says(*answered)), given.stand())
            }
            Step::Remove { id } => {
                let given = Inputs::of([id]);
                (raw::remove(me, contacts, given.at(0)), given.stand())
            }
            Step::Doubt { id } => {
                let given = Inputs::of([id]);
                (raw::doubt(me, contacts, given.at(0)), given.stand())
            }
            Step::Nearest { key } => {
                let given = Inputs::of([key]);
                (raw::nearest(me, contacts, given.at(0), out), given.stand())
            }
            _ => unreachable!("not on contacts"),
        }
    }

    fn on_lookup(&mut self, call: &Call, out: &mut Guarded<u64>) -> (u32, bool) {
        let Lent { me, state, contacts, .. } = call.lent;
        let out = out.lend(usize::MAX);
        let me = self.me.lend(me);
        match &call.step {
            Step::Start { lookup, key, concurrency } => {
                let given = Inputs::of([key]);
                let memory = self.lookups[*lookup].lend(state);
                (raw::lookup_start(me, memory, self.contacts.lend(contacts), given.at(0), *concurrency as usize, out), given.stand())
            }
            Step::Next { lookup } => (raw::lookup_next(self.lookups[*lookup].lend(state), out), true),
            Step::Reply { lookup, sender, body, .. } => {
                let given = Inputs::of([sender, body]);
                let view = Guarded::of(&call.view);
                let code = raw::lookup_reply(me, self.lookups[*lookup].lend(state), given.at(0), given.at(1), view.get(), out);
                (code, given.stand() && view.get() == call.view && view.stands())
            }
            Step::Failure { lookup, sender } => {
                let given = Inputs::of([sender]);
                (raw::lookup_failure(me, self.lookups[*lookup].lend(state), given.at(0), out), given.stand())
            }
            _ => unreachable!("not on a lookup"),
        }
    }

    fn on_others(&mut self, call: &Call, out: &mut Guarded<u64>) -> (u32, bool) {
        let (lent, out) = (&call.lent, out.lend(usize::MAX));
        match &call.step {
            Step::Put { key, value } => {
                let given = Inputs::of([key, value]);
                (raw::put(self.records.lend(lent.records), given.at(0), given.at(1)), given.stand())
            }
            Step::Find { key } => {
                let given = Inputs::of([key]);
                (raw::find(self.records.lend(lent.records), given.at(0), out), given.stand())
            }
            Step::Read { body } => {
                let given = Inputs::of([body]);
                (raw::read(given.at(0), out), given.stand())
            }
            Step::Peer { body, providers, from } => {
                let given = Inputs::of([body]);
                (raw::peer(given.at(0), call.says(*providers), *from, out), given.stand())
            }
            Step::Address { body, start, end, from } => {
                let given = Inputs::of([body]);
                (raw::peer_address(given.at(0), *start, *end, *from, out), given.stand())
            }
            Step::Write { .. } => self.write(call, out),
            Step::RecipeRead { value } => {
                let given = Inputs::of([value]);
                (raw::recipe_read(given.at(0), out), given.stand())
            }
            Step::RecipeWrite { fields } => self.recipe_write(fields, lent.reply, out),
            _ => unreachable!("no call"),
        }
    }

    fn write(&mut self, call: &Call, out: &mut [u64]) -> (u32, bool) {
        let Step::Write { message } = &call.step else { unreachable!("no write") };
        let [closer, providers, no_key, no_value] = &call.lists;
        let (key, value) = message.record.as_ref().map_or((no_key, no_value), |r| (&r.key, &r.value));
        let given = Inputs::of([&message.key, key, value, closer, providers]);
        let held = call.says(message.record.is_some());
        let reply = self.reply.lend(call.lent.reply);
        (raw::write(reply, message.kind, given.at(0), held, given.at(1), given.at(2), given.at(3), given.at(4), out), given.stand())
    }

    fn recipe_write(&mut self, fields: &Fields, room: usize, out: &mut [u64]) -> (u32, bool) {
        let Fields { format, note, core, wrap, sequence } = fields;
        let note = Inputs::of([note]);
        let (turns, trims) = (Inputs::of([&wrap.turns[..], &core.turns]), Inputs::of([&wrap.trims[..], &core.trims]));
        let room = self.reply.lend(room);
        let code = raw::recipe_write(room, *format as usize, note.at(0), turns.at(0), trims.at(0), turns.at(1), trims.at(1), *sequence, out);
        (code, note.stand() && turns.stand() && trims.stand())
    }
}

/// The setpoints of a recipe go into lists that are lent for this call; there is no `out`.
fn recipe_setpoints(value: &[u8], core: u32, turns: &[u32], trims: &[i32], out: &[u64]) -> Made {
    let given = Inputs::of([value]);
    let (mut turns, mut trims) = (Guarded::of(turns), Guarded::of(trims));
    let code = raw::recipe_setpoints(given.at(0), core, turns.lend(usize::MAX), trims.lend(usize::MAX));
    let kept = given.stand() && turns.stands() && trims.stands();
    Made { code, out: out.to_vec(), turns: turns.get().to_vec(), trims: trims.get().to_vec(), kept }
}

impl Call {
    fn says(&self, yes: bool) -> u32 {
        if yes {
            self.yes
        } else {
            0
        }
    }
}
