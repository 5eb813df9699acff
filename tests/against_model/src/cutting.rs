//! Demand 3 through the library itself: the same bytes on the same connections, cut in other ways and handed over at other times, give the same events at the
//! same places, the same replies and the same memory.

use crate::calls::Call;
use crate::host::Host;
use crate::twin::Twin;
use starterbell_model::contacts;
use starterbell_model::gen::{self, Rng, Source};
use starterbell_model::limits::{BODY, REPLY};
use starterbell_model::node::Side;
use starterbell_model::peer::Mode;
use starterbell_model::records;
use starterbell_model::steps::{Step, World};
use starterbell_model::stream::{self, Event, Framing};

/// Streams for the connections, and an order in which their events and some calls of the host come.
struct Plan {
    streams: Vec<Vec<u8>>,
    /// The places in each stream at which an event comes.
    places: Vec<Vec<usize>>,
    /// A line whose next event comes, or a call.
    order: Vec<Result<usize, Step>>,
}

/// An event: on which line, after how many of its bytes, its number, what `out` said beside the bytes taken, and the reply.
type Log = Vec<(usize, usize, u32, Vec<u64>, Vec<u8>)>;

fn event_places(bytes: &[u8]) -> Vec<usize> {
    let (mut framing, mut buffer, mut places, mut at) = (Framing::fresh(), vec![0; BODY], Vec::new(), 0);
    while at < bytes.len() && framing != Framing::Shut {
        let (taken, event) = stream::receive(&mut framing, &mut buffer, &bytes[at..]);
        at += taken;
        if event != Event::More {
            places.push(at);
        }
    }
    places
}

/// A stream of some messages, and an end that is odd or cut off.
fn stream_for(source: &mut Source, twin: &Twin, id: &[u8]) -> Vec<u8> {
    let bodies: Vec<Vec<u8>> = (0..source.rng.between(1, 8)).map(|_| source.request(&twin.world, id)).collect();
    let mut bytes = gen::stream(&bodies);
    if source.rng.one_in(3) {
        bytes.extend(gen::odd_prefix(&mut source.rng));
    } else {
        let last = gen::stream(&[source.request(&twin.world, id)]);
        bytes.extend(&last[..source.rng.below(last.len())]);
    }
    bytes
}

fn plan(source: &mut Source, twin: &Twin, ids: &[Vec<u8>]) -> Plan {
    let streams: Vec<Vec<u8>> = ids.iter().map(|id| stream_for(source, twin, id)).collect();
    let places: Vec<Vec<usize>> = streams.iter().map(|s| event_places(s)).collect();
    let mut order: Vec<Result<usize, Step>> = (0..ids.len()).flat_map(|l| vec![Ok(l); places[l].len()]).collect();
    for _ in 0..5 {
        let key = source.rng.pick(&source.keys).clone();
        order.push(Err(Step::Put { key, value: gen::recipe_value(&mut source.rng) }));
        let id = source.rng.pick(&source.network.ids).clone();
        order.push(Err(Step::Seen { id, mode: Mode::Server, addresses: gen::address_list(&mut source.rng) }));
        order.push(Err(Step::Doubt { id: source.rng.pick(&source.network.ids).clone() }));
    }
    source.rng.shuffle(&mut order);
    Plan { streams, places, order }
}

/// A host that hands streams over, and what came of it.
struct Run<'a> {
    host: Host,
    plan: &'a Plan,
    taken: Vec<usize>,
    shut: Vec<bool>,
    log: Log,
}

impl Run<'_> {
    fn call(&mut self, step: Step) -> (u32, Vec<u64>) {
        let made = self.host.call(&Call { out: vec![0; 12], ..Call::plain(step) });
        (made.code, made.out)
    }

    /// Hands one piece over, again and again until it is taken whole or the connection is shut.
    fn hand(&mut self, line: usize, piece: &[u8]) {
        let mut rest = piece;
        while !self.shut[line] {
            let (code, out) = self.call(Step::Receive { line, piece: rest.to_vec() });
            rest = &rest[out[0] as usize..];
            self.taken[line] += out[0] as usize;
            if code != 64 {
                self.shut[line] = code < 64;
                let reply = if code == 65 { self.host.reply.get()[..out[1] as usize].to_vec() } else { vec![] };
                self.log.push((line, self.taken[line], code, out[1..].to_vec(), reply));
            }
            if rest.is_empty() {
                return;
            }
        }
    }

    /// Hands a line's bytes over up to a place, whole or cut.
    fn up_to(&mut self, cutting: &mut Option<Rng>, line: usize, place: usize) {
        let bytes = self.plan.streams[line][self.taken[line].min(place)..place].to_vec();
        let pieces = match cutting {
            Some(rng) => [vec![vec![]], gen::cut(rng, &bytes)].concat(),
            None => vec![bytes],
        };
        pieces.iter().for_each(|piece| self.hand(line, piece));
    }

    fn play(mut self, mut cutting: Option<Rng>) -> (Host, Log) {
        let lines = self.plan.streams.len();
        let mut events = vec![0; lines];
        for entry in &self.plan.order {
            if let Some(rng) = &mut cutting {
                let line = rng.below(lines);
                let next = self.plan.places[line].get(events[line]).copied().unwrap_or(self.plan.streams[line].len() + 1);
                let before = rng.below(next);
                self.up_to(&mut cutting, line, before);
            }
            match entry {
                Err(step) => drop(self.call(step.clone())),
                Ok(line) => {
                    self.up_to(&mut cutting, *line, self.plan.places[*line][events[*line]]);
                    events[*line] += 1;
                }
            }
        }
        for line in 0..lines {
            self.up_to(&mut cutting, line, self.plan.streams[line].len());
            self.call(Step::End { line });
        }
        (self.host, self.log)
    }
}

fn same_memory(a: &Host, b: &Host) -> bool {
    let lists = |h: &Host| [&h.connections[..], &h.buffers[..]].concat().iter().map(|g| g.get().to_vec()).collect::<Vec<_>>();
    a.contacts.get() == b.contacts.get() && a.records.get() == b.records.get() && a.reply.get() == b.reply.get() && lists(a) == lists(b)
}

/// Demand 3 speaks of memory in form and of buffers that are large enough.
fn speaks_of(world: &World) -> bool {
    let fits = contacts::in_form(&world.contacts, &world.me.place) && records::in_form(&world.records) && world.me.stands().is_ok();
    fits && world.reply.len() >= REPLY && !world.lines.is_empty() && world.lines.iter().all(|l| l.buffer.len() >= BODY)
}

/// Opens a twin's lines anew and plays one plan whole and in two cuts. What differs, if anything does; how many events came.
pub fn cut_twice(twin: &Twin, source: &mut Source, seed: u64) -> Result<usize, String> {
    let lines = twin.world.lines.len();
    if !speaks_of(&twin.world) {
        return Ok(0);
    }
    let ids: Vec<Vec<u8>> = (0..lines).map(|_| source.rng.pick(&source.network.ids).clone()).collect();
    let plan = plan(source, twin, &ids);
    let mut run = Run { host: twin.host.clone(), plan: &plan, taken: vec![0; lines], shut: vec![false; lines], log: vec![] };
    for (line, id) in ids.iter().enumerate() {
        let side = if line == 1 { Side::Asking } else { Side::Serving };
        let mode = if line == 2 { Mode::Client } else { Mode::Server };
        run.shut[line] = run.call(Step::Open { line, id: id.clone(), mode, addresses: gen::address_list(&mut source.rng), side }).0 < 64;
    }
    let (host, shut) = (run.host.clone(), run.shut.clone());
    let (whole, log) = run.play(None);
    for cut in 0..2 {
        let again = Run { host: host.clone(), plan: &plan, taken: vec![0; lines], shut: shut.clone(), log: vec![] };
        let (other, other_log) = again.play(Some(Rng::new(seed ^ (cut + 1) << 40)));
        if let Some((a, b)) = log.iter().zip(&other_log).find(|(a, b)| a != b) {
            return Err(format!("cut {cut}: an event differs\n  whole: {a:02x?}\n  cut:   {b:02x?}"));
        }
        if log.len() != other_log.len() || !same_memory(&whole, &other) {
            return Err(format!("cut {cut}: {} events whole and {} cut, or memory differs at the end", log.len(), other_log.len()));
        }
    }
    Ok(log.len())
}
