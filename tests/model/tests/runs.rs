//! Long runs of calls: cutting changes nothing, form is kept, refused calls change nothing, records stay, lookups keep their promises.

use starterbell_model::contacts;
use starterbell_model::gen::{self, Network, Rng, Source};
use starterbell_model::lookup::{Lookup, Mark, Next, Outcome as Over, Step as Progress};
use starterbell_model::message::{self, encode};
use starterbell_model::node::{Answer, Received, Side};
use starterbell_model::peer::{Me, Mode};
use starterbell_model::place::{distance, place_of};
use starterbell_model::recipe::{self, outranks};
use starterbell_model::records;
use starterbell_model::steps::{Outcome, Step, World};
use starterbell_model::stream::Framing;
use std::collections::{BTreeMap, BTreeSet};

fn world(rng: &mut Rng, contact_slots: usize, record_slots: usize) -> World {
    let me = Me::start(&gen::id(rng), &gen::address_list(rng)).0;
    World::cleared(me, contact_slots, record_slots, 4, 3)
}

fn is_in_form(world: &World) -> bool {
    contacts::in_form(&world.contacts, &world.me.place)
        && records::in_form(&world.records)
        && world.lines.iter().all(|l| l.conn.in_form(&world.me.place))
        && world.lookups.iter().all(|l| *l == Lookup::empty() || l.in_form())
}

/// What a call can't have been refused for and still have changed: all but receive buffers and the connection's framing.
fn refused_changes(before: &World, after: &World, step: &Step) {
    let mut after = after.clone();
    if let Step::Receive { line, .. } | Step::End { line } = step {
        after.lines[*line] = before.lines[*line].clone();
    }
    if let Step::Open { line, .. } = step {
        after.lines[*line] = before.lines[*line].clone();
    }
    if let Step::Start { lookup, .. } = step {
        after.lookups[*lookup] = before.lookups[*lookup].clone();
    }
    assert!(*before == after, "a refused call changed something: {step:?}");
}

fn shut_as_told(world: &World, step: &Step, refusal: Option<u8>) {
    if let Step::Receive { line, .. } = step {
        let shut = world.lines[*line].conn.framing == Framing::Shut;
        assert_eq!(shut, refusal.is_some_and(|n| (2..=11).contains(&n)) || (shut && refusal.is_some_and(|n| n < 2)));
    }
}

#[test]
fn form_is_kept_and_every_refusal_is_met() {
    let mut met: BTreeMap<u8, usize> = BTreeMap::new();
    for (seed, poke_one_in) in [(31, 0), (32, 0), (33, 15), (34, 0)] {
        let mut source = Source::new(seed, 120);
        let mut world = source.world(40 + 10 * (seed as usize % 3), 8, 4, 3, seed % 2 == 0, seed == 32);
        source.poke_one_in = poke_one_in;
        for _ in 0..3_000 {
            let step = source.step(&world);
            let before = world.clone();
            let outcome = world.run(&step);
            if let (Step::Receive { line, .. }, Outcome::Received(got)) = (&step, &outcome) {
                source.taken(*line, got.taken);
            }
            let refusal = outcome.refusal();
            shut_as_told(&world, &step, refusal);
            if let Some(number) = refusal {
                refused_changes(&before, &world, &step);
                *met.entry(number).or_insert(0) += 1;
            }
            let odd_view = matches!(&step, Step::Reply { body, view, .. } if message::read(body) != Ok(*view));
            let no_lookup =
                matches!(&step, Step::Next { lookup } | Step::Reply { lookup, .. } | Step::Failure { lookup, .. } if !before.lookups[*lookup].in_form());
            assert!(poke_one_in > 0 || is_in_form(&world), "out of form after {step:?}");
            assert!(poke_one_in > 0 || refusal != Some(0) || odd_view || no_lookup, "0 for {step:?}");
        }
    }
    let never: Vec<u8> = (0..=21).filter(|n| !met.contains_key(n)).collect();
    assert!(never.is_empty(), "never met: {never:?} of {met:?}");
}

/// What a call came to, in a word.
fn label(outcome: &Outcome, world: &World) -> String {
    let over = |o: &Over| format!("over, complete: {}, answered: {}", o.complete, !o.answered.is_empty());
    match outcome {
        Outcome::Seen(seen) => format!("{seen:?}").split([' ', '(']).next().unwrap_or("").to_string(),
        Outcome::Settled(Ok(settled)) => format!("{settled:?}"),
        Outcome::Doubted(Ok(_)) => "Doubted".to_string(),
        Outcome::Found(Ok(found)) => format!("found: {}", found.is_some()),
        Outcome::Received(Received { answer: Answer::Replied { sighting, length }, .. }) => {
            let body = &world.reply[if world.reply[0] < 0x80 { 1 } else { 2 }..*length];
            let reply = message::decode(body).expect("our own reply");
            format!("reply of type {}, record: {}, 21 peers: {}, seen: {}", reply.kind, reply.record.is_some(), reply.closer.len() == 21, sighting.is_some())
        }
        Outcome::Received(Received { answer: Answer::Given { .. }, .. }) => "given".to_string(),
        Outcome::Step(Progress::Over(o)) | Outcome::Next(Next::Over(o)) => over(o),
        Outcome::Next(next) => format!("{next:?}").split([' ', '(']).next().unwrap_or("").to_string(),
        _ => String::new(),
    }
}

/// The pace that comparing with other code needs: tens of thousands of calls in seconds, in a table of some hundred slots. And the calls reach what there is.
#[test]
fn many_calls() {
    let mut labels: BTreeMap<String, usize> = BTreeMap::new();
    for (seed, made_up) in [(35, false), (36, true)] {
        let mut source = Source::new(seed, 400);
        let mut world = source.world(300, 20, 4, 3, made_up, false);
        source.poke_one_in = 50;
        for _ in 0..25_000 {
            let step = source.step(&world);
            let outcome = world.run(&step);
            *labels.entry(label(&outcome, &world)).or_insert(0) += 1;
            if let (Step::Receive { line, .. }, Outcome::Received(got)) = (&step, &outcome) {
                source.taken(*line, got.taken);
            }
        }
    }
    let reached = |part: &str| labels.keys().any(|l| l.contains(part));
    let find_nodes = ["reply of type 4, record: false, 21 peers: true, seen: true", "reply of type 4, record: false, 21 peers: false, seen: false"];
    let get_values = ["reply of type 1, record: true", "reply of type 1, record: false"];
    let overs = ["over, complete: true, answered: true", "over, complete: false, answered: true"];
    let on_contacts = ["Moved", "Joined", "BucketFull", "Kept", "Swapped", "Doubted"];
    let others = ["found: true", "found: false", "type 0, record: true", "type 5", "given", "Ask", "Wait"];
    for part in [&find_nodes[..], &get_values, &overs, &on_contacts, &others].concat() {
        assert!(reached(part), "{part} isn't reached: {labels:#?}");
    }
}

#[test]
fn a_record_stays_until_a_higher_one_is_accepted() {
    for leapers in [0, 3] {
        records_stay(41 + leapers as u64, leapers);
    }
}

/// Some leapers are held from the start.
fn records_stay(seed: u64, leapers: usize) {
    let mut rng = Rng::new(seed);
    let mut world = world(&mut rng, 20, 6);
    let mut source = Source::new(seed, 40);
    let mut held: BTreeMap<Vec<u8>, Vec<u8>> = source.keys.iter().take(leapers).map(|key| (key.clone(), gen::leaper_value(&mut rng))).collect();
    let slots: Vec<u8> = held.iter().flat_map(|(key, value)| records::slot_bytes(key, value)).collect();
    world.records[..slots.len()].copy_from_slice(&slots);
    let mut accepted = 0;
    for _ in 0..8_000 {
        let step = source.step(&world);
        let outcome = world.run(&step);
        let mut put = None;
        match (&step, &outcome) {
            (Step::Put { key, value }, Outcome::Put(Ok(()))) => put = Some((key.clone(), value.clone())),
            (Step::Receive { line, .. }, Outcome::Received(got)) => {
                source.taken(*line, got.taken);
                if let Answer::Replied { length, .. } = got.answer {
                    let body = &world.reply[if world.reply[0] < 0x80 { 1 } else { 2 }..length];
                    let echo = message::decode(body).expect("our own reply");
                    put = echo.record.filter(|_| echo.kind == 0).map(|r| (r.key, r.value));
                }
            }
            _ => {}
        }
        if let Some((key, value)) = put {
            let before = held.insert(key, value.clone());
            assert!(recipe::read(&value).is_ok() && before.is_none_or(|b| b == value || outranks(&value, &b)));
            accepted += 1;
        }
        for (key, value) in &held {
            assert_eq!(records::find(&world.records, key).unwrap().unwrap().value, *value);
        }
    }
    assert!(accepted > 100 && held.len() == 6, "{accepted} {}", held.len());
}

/// What a run leaves behind: each event with the byte it came at, and its reply bytes.
type Log = Vec<(usize, usize, Answer, Vec<u8>)>;

/// Hands one piece over, again and again until it is taken whole or the connection is shut.
fn hand(world: &mut World, line: usize, piece: &[u8], taken: &mut [usize], log: &mut Log) {
    let mut rest = piece.to_vec();
    loop {
        if world.lines[line].conn.framing == Framing::Shut {
            return;
        }
        let Outcome::Received(Received { taken: n, answer }) = world.run(&Step::Receive { line, piece: rest.clone() }) else { panic!() };
        taken[line] += n;
        rest.drain(..n);
        if answer != Answer::More {
            let reply = if let Answer::Replied { length, .. } = answer { world.reply[..length].to_vec() } else { vec![] };
            log.push((line, taken[line], answer, reply));
        } else if rest.is_empty() {
            return;
        }
        if rest.is_empty() && n > 0 {
            return;
        }
    }
}

/// The places in a stream at which an event comes, as a plain reading finds them.
fn event_places(stream: &[u8]) -> Vec<usize> {
    let mut framing = Framing::fresh();
    let mut buffer = vec![0; 16_384];
    let mut places = Vec::new();
    let mut at = 0;
    while at < stream.len() && framing != Framing::Shut {
        let (taken, event) = starterbell_model::stream::receive(&mut framing, &mut buffer, &stream[at..]);
        at += taken;
        if event != starterbell_model::stream::Event::More {
            places.push(at);
        }
    }
    places
}

/// Streams for some connections, and an order in which their events and some host calls come.
struct Script {
    streams: Vec<Vec<u8>>,
    places: Vec<Vec<usize>>,
    /// A line whose next event comes, or a host call.
    order: Vec<Result<usize, Step>>,
}

fn script(source: &mut Source, world: &World) -> Script {
    let lines = world.lines.len();
    let mut streams = Vec::new();
    for line in 0..lines {
        let requester = world.lines[line].conn.peer.id.clone();
        let bodies: Vec<Vec<u8>> = (0..source.rng.between(1, 12)).map(|_| source.request(world, &requester)).collect();
        let mut bytes = gen::stream(&bodies);
        if source.rng.one_in(3) {
            bytes.extend(gen::odd_prefix(&mut source.rng));
        } else {
            let end = gen::stream(&[source.request(world, &requester)]);
            bytes.extend(&end[..source.rng.below(end.len())]);
        }
        streams.push(bytes);
    }
    let places: Vec<Vec<usize>> = streams.iter().map(|s| event_places(s)).collect();
    let mut order: Vec<Result<usize, Step>> = (0..lines).flat_map(|l| vec![Ok(l); places[l].len()]).collect();
    for _ in 0..10 {
        let key = source.rng.pick(&source.keys).clone();
        order.push(Err(Step::Put { key, value: gen::recipe_value(&mut source.rng) }));
        let id = source.rng.pick(&source.network.ids).clone();
        order.push(Err(Step::Seen { id, mode: Mode::Server, addresses: gen::address_list(&mut source.rng) }));
        order.push(Err(Step::Doubt { id: source.rng.pick(&source.network.ids).clone() }));
    }
    source.rng.shuffle(&mut order);
    Script { streams, places, order }
}

/// Runs a script. Uncut: each message whole, and what is left at the end. Cut: in pieces, with other lines' bytes handed over before their time.
fn run(script: &Script, mut world: World, mut cutting: Option<Rng>) -> (World, Log) {
    let lines = script.streams.len();
    let (mut taken, mut log, mut events) = (vec![0; lines], Log::new(), vec![0; lines]);
    let mut up_to = |world: &mut World, cutting: &mut Option<Rng>, line: usize, place: usize| {
        let bytes = script.streams[line][taken[line].min(place)..place].to_vec();
        let pieces = match cutting {
            Some(rng) => [vec![vec![]], gen::cut(rng, &bytes)].concat(),
            None => vec![bytes],
        };
        for piece in pieces {
            hand(world, line, &piece, &mut taken, &mut log);
        }
    };
    for entry in &script.order {
        if let Some(rng) = &mut cutting {
            let line = rng.below(lines);
            let next = script.places[line].get(events[line]).copied().unwrap_or(script.streams[line].len() + 1);
            let before = rng.below(next);
            up_to(&mut world, &mut cutting, line, before);
        }
        match entry {
            Err(step) => drop(world.run(step)),
            Ok(line) => {
                up_to(&mut world, &mut cutting, *line, script.places[*line][events[*line]]);
                events[*line] += 1;
            }
        }
    }
    for line in 0..lines {
        up_to(&mut world, &mut cutting, line, script.streams[line].len());
        world.run(&Step::End { line });
    }
    (world, log)
}

#[test]
fn cutting_changes_nothing() {
    let mut events = 0;
    for seed in 51..101 {
        let mut source = Source::new(seed, 60);
        let mut rng = Rng::new(seed);
        let mut world = world(&mut rng, 30, 5);
        for line in 0..world.lines.len() {
            let side = if line == 0 { Side::Asking } else { Side::Serving };
            let mode = if line == 1 { Mode::Client } else { Mode::Server };
            let id = source.network.ids[line].clone();
            world.run(&Step::Open { line, id, mode, addresses: gen::address_list(&mut rng), side });
        }
        let script = script(&mut source, &world);
        let (whole_world, whole_log) = run(&script, world.clone(), None);
        for cut in 0..4 {
            let (cut_world, cut_log) = run(&script, world.clone(), Some(Rng::new(1_000 * seed + cut)));
            assert_eq!(cut_log, whole_log, "seed {seed}, cut {cut}");
            assert!(cut_world == whole_world, "seed {seed}, cut {cut}");
        }
        events += whole_log.len();
    }
    assert!(events > 400, "{events}");
}

/// A run of one lookup against peers that answer, fail and lie; what it came to and whom it asked.
fn look(rng: &mut Rng, network: &Network, world: &World, concurrency: u64) -> (Lookup, Over, Vec<Vec<u8>>, BTreeSet<Vec<u8>>) {
    let key = gen::key(rng);
    let (mut lookup, mut step) = Lookup::start(&world.contacts, &world.me, &key, concurrency);
    let mut asked: Vec<Vec<u8>> = Vec::new();
    let mut heard: BTreeSet<Vec<u8>> = lookup.candidates.iter().map(|c| c.id.clone()).collect();
    loop {
        if let Progress::Over(over) = step {
            assert_eq!(lookup.clone().next().1, Next::Over(over.clone()));
            return (lookup, over, asked, heard);
        }
        let (next, answer) = lookup.next();
        lookup = next;
        let flying: Vec<Vec<u8>> = lookup.candidates.iter().filter(|c| c.mark == Mark::InFlight).map(|c| c.id.clone()).collect();
        assert!(flying.len() as u64 <= concurrency);
        match answer {
            Next::Ask { id, .. } => asked.push(id),
            Next::Wait => assert!(!flying.is_empty(), "a lookup that waits for nobody"),
            other => panic!("{other:?}"),
        }
        if flying.is_empty() || rng.one_in(3) {
            continue;
        }
        let sender = rng.pick(&flying).clone();
        let told = if rng.one_in(10) {
            lookup.failure(&world.me, &sender)
        } else {
            let m = network.answer(rng, &sender, &key, &world.me.id);
            let fits = |id: &Vec<u8>| (1..=64).contains(&id.len()) && *id != world.me.id;
            heard.extend(m.closer.iter().take(21).map(|p| p.id.clone()).filter(fits));
            let body = encode(&m);
            let view = message::read(&body).unwrap();
            lookup.reply(&world.me, &sender, &body, &view)
        };
        (lookup, step) = told;
        assert!(lookup.in_form());
    }
}

#[test]
fn lookups_against_peers() {
    let mut cut_short = 0;
    for seed in 101..140 {
        let mut rng = Rng::new(seed);
        let size = *rng.pick(&[5, 30, 200, 600]);
        let network = Network::new(&mut rng, size, 40);
        let mut world = world(&mut rng, 30, 0);
        for id in network.ids.iter().take(15) {
            world.run(&Step::Seen { id: id.clone(), mode: Mode::Server, addresses: vec![] });
        }
        let concurrency = rng.between(1, 10) as u64;
        let (lookup, over, asked, heard) = look(&mut rng, &network, &world, concurrency);
        let once: BTreeSet<&Vec<u8>> = asked.iter().collect();
        assert_eq!(once.len(), asked.len(), "nobody is asked twice");
        assert_eq!((over.sent, over.sent <= 256), (asked.len(), true));
        assert_eq!(over.complete, heard.len() <= lookup.candidates.len(), "complete unless somebody was turned away");
        let failed = |id: &Vec<u8>| lookup.candidates.iter().any(|c| c.id == *id && c.mark == Mark::Failed);
        let mut nearest: Vec<&Vec<u8>> = heard.iter().filter(|id| !failed(id)).collect();
        nearest.sort_by_key(|id| distance(&place_of(id), &lookup.place));
        if over.complete {
            assert_eq!(over.answered.iter().collect::<Vec<_>>(), nearest.into_iter().take(20).collect::<Vec<_>>());
        } else {
            cut_short += 1;
        }
    }
    assert!(cut_short > 0, "no lookup ran out of room");
}

#[test]
fn odd_lookups_are_refused_or_kept_in_form() {
    let mut rng = Rng::new(150);
    let me = Me::start(b"this box", &[]).0;
    let ids: Vec<Vec<u8>> = (0..60).map(|_| gen::id(&mut rng)).collect();
    let mut odd = 0;
    for _ in 0..3_000 {
        let lookup = gen::odd_lookup(&mut rng, &ids);
        let in_form = lookup.in_form();
        odd += usize::from(!in_form);
        let (next, answer) = lookup.clone().next();
        assert_eq!(matches!(answer, Next::Refused(_)), !in_form);
        let (failed, step) = lookup.clone().failure(&me, &rng.pick(&ids)[..]);
        assert!(in_form || (next == lookup && failed == lookup));
        assert!(!in_form || (next.in_form() && failed.in_form()));
        assert!(!matches!(step, Progress::Refused(_)) || failed == lookup);
    }
    assert!(odd > 500 && odd < 2_500, "{odd}");
}

#[test]
fn odd_framings_are_refused_or_go_on() {
    let mut rng = Rng::new(160);
    let mut buffer = vec![0; 16_384];
    for _ in 0..5_000 {
        let mut framing = gen::odd_framing(&mut rng);
        let before = framing.clone();
        let piece = gen::odd_prefix(&mut rng);
        let (taken, event) = starterbell_model::stream::receive(&mut framing, &mut buffer, &piece);
        let refused = before == Framing::Shut || !before.in_form();
        assert!(!refused || (taken == 0 && framing == before && event != starterbell_model::stream::Event::More));
        assert!(refused || framing.in_form());
    }
}
