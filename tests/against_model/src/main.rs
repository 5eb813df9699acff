//! Holds the proved library against the model, call by call. README.md says what is compared and how.
#![forbid(unsafe_code)]

mod answer;
mod args;
mod begin;
mod calls;
mod coverage;
mod cutting;
mod doubts;
mod formats;
mod host;
mod layout;
mod longer;
mod memory;
mod script;
mod twin;

use args::Args;
use coverage::{Before, Coverage};
use script::Action;
use std::panic::{catch_unwind, AssertUnwindSafe};
use std::sync::atomic::{AtomicBool, Ordering};
use std::time::{Duration, Instant};

/// In runs of at least so many calls everything that can come up has to, so often.
const LONG: u64 = 1_000_000;
const LEAST: u64 = 10;

/// A difference: where it was found, and what it is.
struct Difference {
    seed: u64,
    step: u64,
    what: String,
}

/// What a thread has done.
#[derive(Default)]
struct Done {
    calls: u64,
    worlds: u64,
    coverage: Coverage,
    difference: Option<Difference>,
}

struct Bounds {
    since: Instant,
    time: Duration,
    calls: u64,
}

impl Bounds {
    fn reached(&self, calls: u64) -> bool {
        calls >= self.calls && self.since.elapsed() >= self.time
    }
}

/// Makes calls on the world of a seed until it is done with or the bounds are reached; the step's number is kept in `step` for a panic too.
fn play(seed: u64, bounds: &Bounds, stop: &AtomicBool, done: &mut Done, step: &mut u64) -> Result<(), String> {
    let (mut twin, mut script, steps) = begin::begin(seed);
    while *step < steps && !bounds.reached(done.calls) && !stop.load(Ordering::Relaxed) {
        match script.next(&twin) {
            Action::Write { region, at, bytes } => twin.write(region, at, &bytes),
            Action::Lend { memory, length } => twin.resize(memory, length),
            Action::Call(call) => {
                *step += 1;
                let before = Before { contacts: twin.world.contacts.clone(), records: twin.world.records.clone() };
                let answer = twin.call(&call).map_err(|what| format!("{}\n{what}", shortened(&format!("call: {call:02x?}"))))?;
                done.calls += 1;
                done.coverage.add(&before, &twin, &call, &answer);
                script.after(&twin, &call, &answer);
            }
        }
    }
    twin.all_differs().map_or(Ok(()), |what| Err(format!("after the last call\n{what}")))?;
    if *step == steps && seed % 4 == 0 {
        done.coverage.cuttings += u64::from(cutting::cut_twice(&twin, &mut script.source, seed)? > 0);
    }
    Ok(())
}

fn shortened(text: &str) -> String {
    let most = 6_000;
    if text.len() <= most {
        text.to_string()
    } else {
        format!("{} .. ({} characters)", text.chars().take(most).collect::<String>(), text.len())
    }
}

/// One world after another.
fn work(first: u64, every: u64, bounds: &Bounds, stop: &AtomicBool) -> Done {
    let mut done = Done::default();
    let mut seed = first;
    while !bounds.reached(done.calls) && !stop.load(Ordering::Relaxed) {
        let mut step = 0;
        let played = catch_unwind(AssertUnwindSafe(|| play(seed, bounds, stop, &mut done, &mut step)));
        let what = match played {
            Ok(Ok(())) => None,
            Ok(Err(what)) => Some(what),
            Err(_) => Some("a panic, which is told above".to_string()),
        };
        if let Some(what) = what {
            stop.store(true, Ordering::Relaxed);
            done.difference = Some(Difference { seed, step, what });
            return done;
        }
        done.worlds += 1;
        seed = seed.wrapping_add(every);
    }
    done
}

fn run(args: &Args) -> Vec<Done> {
    let stop = AtomicBool::new(false);
    let bounds = Bounds { since: Instant::now(), time: Duration::from_secs(args.seconds), calls: args.steps.div_ceil(args.threads) };
    std::thread::scope(|scope| {
        let worker = |i: u64| {
            let (bounds, stop) = (&bounds, &stop);
            scope.spawn(move || work(args.seed.wrapping_add(i), args.threads, bounds, stop))
        };
        let workers: Vec<_> = (0..args.threads).map(worker).collect();
        workers.into_iter().map(|w| w.join().expect("panics are caught")).collect()
    })
}

fn tell(difference: &Difference) {
    let Difference { seed, step, what } = difference;
    println!("DIFFERENCE: seed {seed}, step {step}\n{what}");
    println!("to play it again: tests/differential --play {seed} {step}");
}

fn main() {
    let args = args::parse(std::env::args().skip(1)).unwrap_or_else(|why| {
        eprintln!("starterbell-against-model: {why}\n{}", args::USAGE);
        std::process::exit(2);
    });
    let since = Instant::now();
    let all = run(&args);
    let seconds = since.elapsed().as_secs_f64();
    let mut coverage = Coverage::default();
    all.iter().for_each(|done| coverage.join(&done.coverage));
    let (calls, worlds) = (all.iter().map(|d| d.calls).sum::<u64>(), all.iter().map(|d| d.worlds).sum::<u64>());
    coverage.print();
    let differences: Vec<&Difference> = all.iter().filter_map(|d| d.difference.as_ref()).collect();
    differences.iter().for_each(|d| tell(d));
    let lacks = if calls >= LONG { coverage.lacks(LEAST) } else { vec![] };
    lacks.iter().for_each(|l| println!("NOT COVERED: {l}"));
    let rate = calls as f64 / seconds.max(0.001);
    println!("{calls} calls in {worlds} worlds from seed {}, {} differences ({seconds:.0} s, {rate:.0} calls a second)", args.seed, differences.len());
    std::process::exit(i32::from(!differences.is_empty() || !lacks.is_empty()));
}
