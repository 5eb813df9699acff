//! The numbers that a call has to give for the model's outcome: the one it returns, those it writes to `out`, and those in lists lent for setpoints (comments of
//! crates/host).

use starterbell_model::contacts::{Seen, Settled};
use starterbell_model::lookup::{Lookup, Mark, Next, Outcome as Over, Step as Progress};
use starterbell_model::message::{PeerView, View};
use starterbell_model::node::{Answer as Said, Received};
use starterbell_model::recipe::Broken;
use starterbell_model::steps::{Outcome, Step, World};
use starterbell_model::wire::Span;
use starterbell_model::Refusal;

#[derive(Clone, Debug, Default, PartialEq, Eq)]
pub struct Answer {
    pub code: u32,
    pub numbers: Vec<u64>,
    /// All that the lent lists have then.
    pub turns: Vec<u32>,
    pub trims: Vec<i32>,
}

fn gives(code: u32, numbers: &[usize]) -> Answer {
    Answer { code, numbers: numbers.iter().map(|n| *n as u64).collect(), ..Answer::default() }
}

fn says(code: u32, numbers: Vec<u64>) -> Answer {
    Answer { code, numbers, ..Answer::default() }
}

/// 9: the rule, of what it is broken, and which setpoint.
fn of_broken(broken: &Broken) -> Answer {
    gives(9, &[broken.rule as usize, broken.part as usize, broken.setpoint])
}

fn refuses(refusal: Refusal) -> Answer {
    gives(u32::from(refusal.number()), &[])
}

/// 64, or the refusal.
fn done<T>(result: &Result<T, Refusal>) -> Answer {
    result.as_ref().map_or_else(|r| refuses(*r), |_| gives(64, &[]))
}

fn ends(span: &Span) -> [u64; 2] {
    [span.at as u64, span.end() as u64]
}

/// A view as eight numbers.
pub fn view_numbers(view: &View) -> Vec<u64> {
    let (there, key, value) = view.record.map_or((0, Span::default(), Span::default()), |r| (1, r.key, r.value));
    [&[view.kind][..], &ends(&view.key), &[there], &ends(&key), &ends(&value)].concat()
}

/// A peer as 22 numbers: of its addresses how many there are, and the ends of the first eight, with zeros after those that there are.
fn peer_numbers(peer: &PeerView) -> Vec<u64> {
    let mut numbers = [&ends(&peer.entry)[..], &ends(&peer.id), &[peer.connection, peer.addresses.len() as u64]].concat();
    numbers.extend(peer.addresses.iter().take(8).flat_map(ends));
    numbers.resize(22, 0);
    numbers
}

/// A number before twenty others, with zeros after those that there are.
fn twenty(first: &[usize], of: &[usize]) -> Vec<usize> {
    let mut numbers = [first, &[of.len()], of].concat();
    numbers.resize(first.len() + 21, 0);
    numbers
}

fn of_seen(seen: &Seen) -> Answer {
    match seen {
        Seen::Moved { slot } => gives(64, &[*slot]),
        Seen::Joined { slot } => gives(65, &[*slot]),
        Seen::BucketFull { head_slot, .. } => gives(13, &[*head_slot]),
        Seen::Refused(refusal) => refuses(*refusal),
    }
}

/// 0 none, 1 moved, 2 joined, 3 the bucket is full, 4 no slot; and its slot.
fn sighting(seen: &Option<Seen>) -> [usize; 2] {
    match seen {
        None => [0, 0],
        Some(Seen::Moved { slot }) => [1, *slot],
        Some(Seen::Joined { slot }) => [2, *slot],
        Some(Seen::BucketFull { head_slot, .. }) => [3, *head_slot],
        Some(Seen::Refused(_)) => [4, 0],
    }
}

fn of_received(got: &Received) -> Answer {
    match &got.answer {
        Said::More => gives(64, &[got.taken, 0, 0, 0]),
        Said::Replied { length, sighting: seen } => {
            let [number, slot] = sighting(seen);
            gives(65, &[got.taken, *length, number, slot])
        }
        Said::Given { length, view } => {
            let mut answer = gives(66, &[got.taken, *length, 0, 0]);
            answer.numbers.extend(view_numbers(view));
            answer
        }
        Said::Refused(refusal) => gives(u32::from(refusal.number()), &[got.taken, 0, 0, 0]),
    }
}

/// Over: the requests sent and the ranks of the answered ones.
fn of_over(over: &Over, lookup: &Lookup) -> Answer {
    let ranks: Vec<usize> = lookup.twenty().into_iter().filter(|i| lookup.candidates[*i].mark == Mark::Answered).collect();
    assert!(ranks.iter().map(|i| &lookup.candidates[*i].id).eq(&over.answered), "the model's answered ones are its own");
    gives(if over.complete { 67 } else { 68 }, &twenty(&[over.sent], &ranks))
}

fn of_step(step: &Progress, lookup: &Lookup) -> Answer {
    match step {
        Progress::Over(over) => of_over(over, lookup),
        Progress::Going => gives(64, &twenty(&[0], &[])),
        Progress::Refused(refusal) => refuses(*refusal),
    }
}

fn of_next(next: &Next, lookup: &Lookup) -> Answer {
    match next {
        Next::Over(over) => of_over(over, lookup),
        Next::Wait => gives(65, &twenty(&[0], &[])),
        Next::Ask { candidate, .. } => gives(66, &twenty(&[*candidate], &[])),
        Next::Refused(refusal) => refuses(*refusal),
    }
}

fn lookup_of<'a>(step: &Step, world: &'a World) -> &'a Lookup {
    match step {
        Step::Start { lookup, .. } | Step::Next { lookup } | Step::Reply { lookup, .. } | Step::Failure { lookup, .. } => &world.lookups[*lookup],
        _ => unreachable!("no step of a lookup"),
    }
}

/// What the call has to give; `world` is the one after the step.
pub fn answer_of(outcome: &Outcome, step: &Step, world: &World) -> Answer {
    match outcome {
        Outcome::Begun(refusal) | Outcome::Opened(refusal) => refusal.map_or(gives(64, &[]), refuses),
        Outcome::Seen(seen) => of_seen(seen),
        Outcome::Settled(Ok(settled)) => gives(if *settled == Settled::Kept { 64 } else { 65 }, &[]),
        Outcome::Settled(Err(refusal)) => refuses(*refusal),
        Outcome::Removed(result) | Outcome::Doubted(result) => done(result),
        Outcome::Nearest(Ok(slots)) => gives(64, &twenty(&[], slots)),
        Outcome::Nearest(Err(refusal)) => refuses(*refusal),
        Outcome::Put(result) | Outcome::Ended(result) => done(result),
        Outcome::Found(Ok(Some(found))) => gives(64, &[found.at(), found.at() + found.value.len()]),
        Outcome::Found(Ok(None)) | Outcome::Peer(None) | Outcome::Address(None) => gives(65, &[]),
        Outcome::Found(Err(refusal)) | Outcome::Read(Err(refusal)) | Outcome::Written(Err(refusal)) => refuses(*refusal),
        Outcome::Received(got) => of_received(got),
        Outcome::Step(progress) => of_step(progress, lookup_of(step, world)),
        Outcome::Next(next) => of_next(next, lookup_of(step, world)),
        Outcome::Read(Ok(view)) => says(64, view_numbers(view)),
        Outcome::Peer(Some(peer)) => says(64, peer_numbers(peer)),
        Outcome::Address(Some(address)) => says(64, ends(address).to_vec()),
        Outcome::Written(Ok(length)) | Outcome::RecipeWritten(Ok(length)) => gives(64, &[*length]),
        Outcome::RecipeRead(Ok(numbers)) => says(64, numbers.to_vec()),
        Outcome::RecipeRead(Err(broken)) | Outcome::RecipeWritten(Err(broken)) => of_broken(broken),
        Outcome::RecipeSetpoints { broken, turns, trims } => {
            Answer { code: broken.map_or(64, |_| 9), turns: turns.clone(), trims: trims.clone(), ..Answer::default() }
        }
        Outcome::Done => unreachable!("no call"),
    }
}
