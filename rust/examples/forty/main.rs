//! Forty boxes share winding recipes with no server, in this process or over TCP. Some never answer, and some lie. See `--help`.

mod agree;
mod bench;
mod job;
mod liar;
mod memory;
mod net;
mod path;
mod rng;
mod svg;
mod tally;
mod tcp;
mod world;

use bench::Habit;
use net::Net;
use starterbell::Refusal;
use std::io::{IsTerminal, Write};
use std::path::{Path, PathBuf};
use std::process::ExitCode;
use std::time::{Duration, Instant};
use tally::Tally;
use world::{Phase, World, LONG};

const HELP: &str = "\
usage: forty [--tcp] [--seed N] [--benches N] [--svg FILE]

Forty boxes join over time, put winding recipes at the boxes nearest to their keys, put newer versions, and then every honest one finds every recipe.
One in five honest ones makes cello strings, whose recipes have over 200 setpoints and over 2,048 bytes; one in five winds with two spools, wrap and core.
One in eight never answers; one in eight lies: it makes up peers, sends broken bytes, recipes that don't check or are old, or more than it was asked for.
A box marks as doubtful who left a request unanswered, and sends nobody there until it is seen again. All of it then runs once more with boxes that mark
nobody, so that the summary can say how many requests to silent boxes the marks save.
Bytes come in pieces of random size. In the end each honest box is offered every recipe in both versions, in an order of its own, and all hold the same.
The exit status is 0 where every recipe was found as it was put, every lookup has ended, and all honest boxes hold the same records.

  --tcp         over TCP on this machine, with real sockets and timeouts, instead of in memory
  --seed N      another run; in memory the same seed gives the same run (40)
  --benches N   how many boxes, 8 to 80 (40)
  --svg FILE    where the picture of a newcomer's lookup is written (forty.svg in the project's target folder)
  --help        this";

struct Wanted {
    tcp: bool,
    seed: u64,
    benches: usize,
    svg: PathBuf,
}

enum Asked {
    Run(Wanted),
    Help,
}

/// The folder that cargo and rt write to, so that a run leaves nothing elsewhere.
fn default_svg() -> PathBuf {
    let package = Path::new(env!("CARGO_MANIFEST_DIR"));
    package.parent().unwrap_or(package).join("target").join("forty.svg")
}

fn arguments() -> Result<Asked, String> {
    let mut wanted = Wanted { tcp: false, seed: 40, benches: 40, svg: default_svg() };
    let mut words = std::env::args().skip(1);
    while let Some(word) = words.next() {
        let mut value = || words.next().ok_or_else(|| format!("{word} needs a value"));
        match word.as_str() {
            "--help" | "-h" => return Ok(Asked::Help),
            "--tcp" => wanted.tcp = true,
            "--seed" => wanted.seed = number(&value()?)?,
            "--benches" => wanted.benches = number(&value()?)? as usize,
            "--svg" => wanted.svg = value()?.into(),
            _ => return Err(format!("{word} is not known here")),
        }
    }
    if !(8..=80).contains(&wanted.benches) {
        return Err(format!("{} benches: it takes 8 to 80", wanted.benches));
    }
    Ok(Asked::Run(wanted))
}

fn number(word: &str) -> Result<u64, String> {
    word.parse().map_err(|_| format!("{word} is no whole number"))
}

fn main() -> ExitCode {
    let wanted = match arguments() {
        Ok(Asked::Run(wanted)) => wanted,
        Ok(Asked::Help) => {
            println!("{HELP}");
            return ExitCode::SUCCESS;
        }
        Err(why) => {
            eprintln!("forty: {why}\n\n{HELP}");
            return ExitCode::from(2);
        }
    };
    run(&wanted).unwrap_or_else(|why| {
        eprintln!("forty: {why}");
        ExitCode::from(2)
    })
}

fn run(wanted: &Wanted) -> Result<ExitCode, String> {
    let start = Instant::now();
    let draw = |picture: &str| std::fs::write(&wanted.svg, picture).map_err(|why| format!("{} can't be written: {why}", wanted.svg.display()));
    draw("")?; // now, not after the run
    let world = play(wanted, Habit::Doubts, |world| draw(&svg::draw(&world.benches, &kinds(world))))?;
    let trusting = play(wanted, Habit::Trusts, |_| Ok(()))?;
    let mut problems = world.problems();
    problems.extend(trusting.problems().iter().map(|problem| format!("{}{problem}", before(Habit::Trusts))));
    let said = summary(wanted, &world, &trusting, start.elapsed()) + &verdict(&problems);
    // a reader that has gone away is no failure of the run
    let _ = std::io::stdout().write_all(said.as_bytes());
    Ok(if problems.is_empty() { ExitCode::SUCCESS } else { ExitCode::FAILURE })
}

/// A run from the first bench to the last phase. `look` is called before every bench holds every recipe.
fn play(wanted: &Wanted, habit: Habit, look: impl FnOnce(&World) -> Result<(), String>) -> Result<World, String> {
    let net: Box<dyn Net> = if wanted.tcp {
        Box::new(tcp::Tcp::new(wanted.benches, wanted.seed).map_err(|why| format!("no sockets to listen on: {why}"))?)
    } else {
        Box::new(memory::Memory::new(wanted.benches, wanted.seed))
    };
    let mut world = World::new(wanted.benches, wanted.seed, habit, net).map_err(|refusal| format!("a box can't be started: {refusal}"))?;
    let mut tell = progress(habit);
    world.run(&mut tell);
    look(&world)?;
    if world.phase == Phase::Agreeing {
        world.agree();
        tell(&world);
    }
    Ok(world)
}

/// What stands before all that is told of such a run.
fn before(habit: Habit) -> &'static str {
    match habit {
        Habit::Doubts => "",
        Habit::Trusts => "with nobody marked, ",
    }
}

fn verdict(problems: &[String]) -> String {
    if problems.is_empty() {
        return "every lookup has ended, and every honest bench found every recipe and holds what the others hold\n".into();
    }
    let first: String = problems.iter().take(20).map(|problem| format!("wrong: {problem}\n")).collect();
    format!("{first}{} things went wrong\n", problems.len())
}

/// On a terminal a line that changes; else a line for each phase.
fn progress(habit: Habit) -> impl FnMut(&World) {
    let before = before(habit);
    let terminal = std::io::stderr().is_terminal();
    let mut told = None;
    let mut last = Instant::now();
    move |world| {
        let new = told != Some(world.phase);
        told = Some(world.phase);
        if terminal && (new || last.elapsed() > Duration::from_millis(100)) {
            last = Instant::now();
            let end = if world.phase == Phase::Over { "\n" } else { "" };
            eprint!("\r\x1b[K{before}{}: {} lookups, {} recipes found{end}", world.phase.says(), world.tally.lookups, world.found());
        } else if new && !terminal {
            eprintln!("{before}{}", world.phase.says());
        }
    }
}

fn kinds(world: &World) -> String {
    let (all, honest, silent) = (world.benches.len(), world.honest(), world.silent());
    let liars = all - honest - silent;
    format!("{all} benches: {honest} honest, {silent} silent, {liars} {}", if liars == 1 { "liar" } else { "liars" })
}

fn summary(wanted: &Wanted, world: &World, trusting: &World, took: Duration) -> String {
    let (tally, traffic) = (&world.tally, world.net.traffic());
    let carried = if wanted.tcp { "over TCP" } else { "in memory" };
    let each = tally.requests as f64 / tally.ended().max(1) as f64;
    let lines = [
        format!("{}; {carried}, seed {}", kinds(world), wanted.seed),
        format!("recipes    {} in two versions, {} puts accepted; {} finds by {} benches", world.recipes(), tally.stored, world.found(), world.honest()),
        format!("longest    {}", longest(&world.long_recipes())),
        format!("spools     {}", spools(world.for_two_spools())),
        format!("lookups    {} begun, {} complete, {} cut short", tally.lookups, tally.complete, tally.cut_short),
        format!("requests   {each:.1} for each lookup, at most {}; {} of all requests unanswered", tally.most_requests, tally.failures),
        format!("dead       {}", dead(tally.dead, trusting.tally.dead)),
        format!("messages   {} on {} connections; {} bytes in {} pieces", tally.messages, traffic.connections, traffic.bytes, traffic.pieces),
        format!("contacts   {} heads of full buckets probed, {} swapped", tally.probes, tally.swaps),
        format!("path       {}", path(world)),
        format!(
            "lies       {} messages nobody asked for, {} bad recipes, {} old ones outranked",
            tally.unasked,
            tally.broken.values().sum::<u64>(),
            tally.outranked
        ),
        format!("bad        {}", broken(tally)),
        format!("agreement  {}", agreement(world)),
        format!("refusals   {}", refusals(&tally.refusals)),
        format!("time       {:.1} s", took.as_secs_f64()),
        format!("picture    {}", wanted.svg.display()),
    ];
    lines.join("\n") + "\n"
}

/// What the marks save: the requests to benches that never answer, with marks and without.
fn dead(with: u64, without: u64) -> String {
    let saved = if with < without { format!("{} saved", without - with) } else { "none saved".into() };
    format!("{with} requests to silent benches; {without} where nobody is marked as doubtful: {saved}")
}

/// The long recipes, by their setpoints and bytes.
fn longest(long: &[(usize, usize)]) -> String {
    let most = |size: fn(&(usize, usize)) -> usize| long.iter().map(size).max().unwrap_or_default();
    let (setpoints, bytes) = (most(|size| size.0), most(|size| size.1));
    format!("{} recipes of cello strings with over {} setpoints and {} bytes, up to {setpoints} and {bytes}", long.len(), LONG.0, LONG.1)
}

/// The recipes for two spools.
fn spools((two, one_before): (usize, usize)) -> String {
    format!("{two} recipes for two spools, wrap and core; {one_before} of these were for one in their first version")
}

fn agreement(world: &World) -> String {
    if world.phase != Phase::Over {
        return "none, since the run didn't come to it".into();
    }
    let (agreeing, records, tally) = (world.agreeing(), world.recipes(), &world.tally);
    format!("{agreeing} benches hold the same {records} records, byte for byte; {} offers, {} of them outranked", tally.offers, tally.late)
}

/// The lookup that the picture shows.
fn path(world: &World) -> String {
    let Some((number, path)) = svg::newcomer(&world.benches) else { return "none, since nobody has joined".into() };
    let (known, answers, found) = (path.known.len(), path.answers(), path.found.len());
    format!("bench {number} knew {known} when it joined, sent {} requests, had {answers} answers and found {found}", path.requests)
}

/// What was wrong with bad recipes.
fn broken(tally: &Tally) -> String {
    if tally.broken.is_empty() {
        return "no recipe".into();
    }
    let parts: Vec<String> = tally.broken.iter().map(|(wrong, count)| format!("{wrong} {count}")).collect();
    format!("recipes by what is wrong: {}", parts.join(", "))
}

/// Those that were given, each with its name and its number.
fn refusals(counts: &[u64]) -> String {
    let given = Refusal::ALL.iter().zip(counts).filter(|(_, count)| **count > 0);
    given.map(|(refusal, count)| format!("{refusal:?} ({}) {count}", refusal.number())).collect::<Vec<_>>().join(", ")
}
