//! The run: benches join over time, put recipes, put newer ones, and then each finds all of them. In the end each is offered them all, and all hold the same.

use crate::agree;
use crate::bench::{Bench, Habit, Role};
use crate::job::Goal;
use crate::liar::{Liar, Trick};
use crate::net::Net;
use crate::rng::Rng;
use crate::tally::{Around, Tally};
use starterbell::message::Record;
use starterbell::recipe::{Broken, Format, Recipe, Setpoint, SETPOINTS_MAX, VALUE_MAX};
use starterbell::{Node, Peer, Refusal, Room};
use std::collections::BTreeSet;
use std::time::{Duration, Instant};

/// Each honest bench owns so many recipes.
const RECIPES_EACH: usize = 2;
/// One in so many honest benches makes cello strings, the first of them too, and one in so many winds with two spools.
const MAKERS: usize = 5;
/// A cello string's recipe has more setpoints and more bytes than these, the most that version 0.1 took.
pub const LONG: (usize, usize) = (200, 2_048);
/// A run that takes longer has failed.
const LONGEST: Duration = Duration::from_secs(300);

#[derive(Clone, Copy, PartialEq, Eq, Debug)]
pub enum Phase {
    Joining,
    LookingAround,
    Putting,
    PuttingNewer,
    Finding,
    Agreeing,
    Over,
}

impl Phase {
    pub fn says(self) -> &'static str {
        match self {
            Phase::Joining => "benches join",
            Phase::LookingAround => "each looks around once more",
            Phase::Putting => "recipes are put at the benches nearest to their keys",
            Phase::PuttingNewer => "newer versions of all recipes are put",
            Phase::Finding => "every honest bench finds every recipe",
            Phase::Agreeing => "every honest bench is offered every recipe, in an order of its own",
            Phase::Over => "done",
        }
    }

    fn next(self) -> Phase {
        match self {
            Phase::Joining => Phase::LookingAround,
            Phase::LookingAround => Phase::Putting,
            Phase::Putting => Phase::PuttingNewer,
            Phase::PuttingNewer => Phase::Finding,
            Phase::Finding => Phase::Agreeing,
            Phase::Agreeing | Phase::Over => Phase::Over,
        }
    }
}

/// A recipe in two versions, and the bench that puts it.
struct Owned {
    owner: usize,
    key: Vec<u8>,
    versions: [Vec<u8>; 2],
}

pub struct World {
    pub benches: Vec<Bench>,
    pub tally: Tally,
    pub net: Box<dyn Net>,
    pub phase: Phase,
    rng: Rng,
    recipes: Vec<Owned>,
    silent: BTreeSet<Vec<u8>>,
    joined: usize,
    next_bother: u64,
}

impl World {
    pub fn new(count: usize, seed: u64, habit: Habit, net: Box<dyn Net>) -> Result<World, Refusal> {
        let mut rng = Rng(seed ^ 0xf0f0);
        let mut benches = Vec::new();
        for (number, role) in roles(count, &mut rng).into_iter().enumerate() {
            // libp2p's id of an Ed25519 key: the key itself, with what it is before it
            let id = [&[0, 36, 8, 1, 18, 32][..], &rng.bytes::<32>()].concat();
            let node = Node::start(&id, &[&net.address(number)], Room { contacts: 64, records: RECIPES_EACH * count })?;
            benches.push(Bench::new(number, node, role, habit));
        }
        let honest: Vec<usize> = (0..count).filter(|bench| benches[*bench].is_honest()).collect();
        let owners = honest.iter().flat_map(|owner| std::iter::repeat_n(*owner, RECIPES_EACH));
        let recipes = owners.enumerate().map(|(n, owner)| make_recipe(n, owner, &mut rng)).collect::<Result<_, _>>()?;
        let silent = benches.iter().filter(|bench| bench.is_silent()).map(|bench| bench.node.id().to_vec()).collect();
        Ok(World { benches, tally: Tally::default(), net, phase: Phase::Joining, rng, recipes, silent, joined: 0, next_bother: 0 })
    }

    pub fn recipes(&self) -> usize {
        self.recipes.len()
    }

    /// The setpoints and bytes of each long recipe, as it is to be found.
    pub fn long_recipes(&self) -> Vec<(usize, usize)> {
        let newer = self.recipes.iter().map(|recipe| &recipe.versions[1]);
        let sizes = newer.filter_map(|value| Some((Recipe::from_value(value).ok()?.wrap.len(), value.len())));
        sizes.filter(|(setpoints, bytes)| *setpoints > LONG.0 && *bytes > LONG.1).collect()
    }

    /// How many recipes are for two spools, and how many of these were for one spool in their first version.
    pub fn for_two_spools(&self) -> (usize, usize) {
        let is_for = |value: &[u8], format| Recipe::from_value(value).is_ok_and(|recipe| recipe.format == format);
        let two: Vec<_> = self.recipes.iter().filter(|recipe| is_for(&recipe.versions[1], Format::Two)).collect();
        (two.len(), two.iter().filter(|recipe| is_for(&recipe.versions[0], Format::One)).count())
    }

    pub fn silent(&self) -> usize {
        self.silent.len()
    }

    pub fn honest(&self) -> usize {
        self.benches.iter().filter(|bench| bench.is_honest()).count()
    }

    /// How many searches for a recipe are over.
    pub fn found(&self) -> usize {
        self.benches.iter().map(|bench| bench.got.len()).sum()
    }

    /// Runs it all up to the last phase. `tell` is called with the state now and then.
    pub fn run(&mut self, mut tell: impl FnMut(&World)) {
        let start = Instant::now();
        while self.phase != Phase::Agreeing && start.elapsed() < LONGEST {
            self.step();
            tell(self);
        }
    }

    fn step(&mut self) {
        let World { benches, tally, net, rng, silent, .. } = self;
        let news = net.poll();
        let mut around = Around { net: net.as_mut(), rng, tally, silent };
        for news in news {
            benches[news.bench].on(news, &mut around);
        }
        for bench in benches.iter_mut() {
            bench.advance(&mut around);
        }
        if around.net.now() >= self.next_bother {
            self.next_bother = around.net.now() + around.net.patience() / 8;
            for bench in benches.iter_mut() {
                bench.bother(&mut around);
            }
        }
        self.join();
        if self.joined == self.benches.len() && self.benches.iter().all(Bench::is_idle) {
            self.phase = self.phase.next();
            self.begin();
        }
    }

    /// The next bench joins when its time has come. It knows one honest bench that was there before.
    fn join(&mut self) {
        let number = self.joined;
        if number == self.benches.len() || self.net.now() < number as u64 * self.net.patience() / 16 {
            return;
        }
        self.joined += 1;
        let before: Vec<usize> = (0..number).filter(|bench| self.benches[*bench].is_honest()).collect();
        if before.is_empty() {
            return;
        }
        let first = before[self.rng.below(before.len())];
        let (id, address) = (self.benches[first].node.id().to_vec(), self.net.address(first));
        let bench = &mut self.benches[number];
        if bench.node.seen(Peer::server(&id, &[&address])).is_ok() {
            bench.goals.push_back(Goal::Join);
        }
    }

    /// Gives each bench what it has to do in this phase.
    fn begin(&mut self) {
        match self.phase {
            Phase::LookingAround => self.benches.iter_mut().for_each(|bench| bench.goals.push_back(Goal::Join)),
            Phase::Putting => self.put(0),
            Phase::PuttingNewer => self.put(1),
            Phase::Finding => self.find_all(),
            Phase::Joining | Phase::Agreeing | Phase::Over => {}
        }
    }

    fn put(&mut self, version: usize) {
        for recipe in &self.recipes {
            let goal = Goal::Put { key: recipe.key.clone(), value: recipe.versions[version].clone() };
            self.benches[recipe.owner].goals.push_back(goal);
        }
    }

    fn find_all(&mut self) {
        for bench in self.benches.iter_mut().filter(|bench| bench.is_honest()) {
            let mut keys: Vec<_> = self.recipes.iter().map(|recipe| recipe.key.clone()).collect();
            self.rng.shuffle(&mut keys);
            bench.goals.extend(keys.into_iter().map(|key| Goal::Get { key }));
        }
    }

    /// The last phase, past the net: every honest bench is offered both versions of every recipe.
    pub fn agree(&mut self) {
        let World { benches, tally, net, rng, recipes, silent, .. } = self;
        let ids: Vec<Vec<u8>> = benches.iter().map(|bench| bench.node.id().to_vec()).collect();
        let offers = recipes.iter().flat_map(|recipe| recipe.versions.iter().map(|value| Record { key: &recipe.key, value }));
        let offers: Vec<Record> = offers.collect();
        let mut around = Around { net: net.as_mut(), rng, tally, silent };
        for bench in benches.iter_mut().filter(|bench| bench.is_honest()) {
            agree::offer_all(&mut bench.node, &ids, &offers, &mut around);
        }
        self.phase = self.phase.next();
    }

    /// The honest benches that hold other records than the newer version of each recipe, byte for byte.
    fn at_odds(&self) -> Vec<usize> {
        let mut newer: Vec<(&[u8], &[u8])> = self.recipes.iter().map(|recipe| (&recipe.key[..], &recipe.versions[1][..])).collect();
        newer.sort_unstable();
        (0..self.benches.len()).filter(|bench| self.benches[*bench].is_honest() && agree::held(&self.benches[*bench].node) != newer).collect()
    }

    /// How many benches hold the same records.
    pub fn agreeing(&self) -> usize {
        self.honest() - self.at_odds().len()
    }

    /// What went wrong, a line for each.
    pub fn problems(&self) -> Vec<String> {
        let mut problems = Vec::new();
        for (number, bench) in self.benches.iter().enumerate().filter(|(_, bench)| bench.is_honest()) {
            for recipe in &self.recipes {
                let name = String::from_utf8_lossy(&recipe.key);
                match bench.got.iter().find(|(key, _)| *key == recipe.key) {
                    Some((_, Some(value))) if *value == recipe.versions[1] => {}
                    Some((_, Some(value))) if *value == recipe.versions[0] => problems.push(format!("bench {number} found an old version of {name}")),
                    Some((_, Some(_))) => problems.push(format!("bench {number} found another recipe under {name}")),
                    _ => problems.push(format!("bench {number} didn't find {name}")),
                }
            }
        }
        if self.phase == Phase::Over {
            problems.extend(self.at_odds().iter().map(|bench| format!("bench {bench} holds other records than the newer version of each recipe")));
        }
        let no_slot = self.tally.refusals[Refusal::NoRecordSlot.number() as usize];
        if no_slot > 0 {
            problems.push(format!("{no_slot} records had no slot, where there is one for every recipe"));
        }
        let open = self.tally.lookups - self.tally.ended();
        if open > 0 {
            problems.push(format!("{open} lookups didn't end"));
        }
        problems
    }
}

/// One in eight is silent and one in eight lies; the first, which all the others join through, is honest.
fn roles(count: usize, rng: &mut Rng) -> Vec<Role> {
    let mut roles: Vec<Role> = Vec::new();
    roles.extend((0..count / 8).map(|_| Role::Silent));
    roles.extend((0..count / 8).map(|n| Role::Liar(Liar::new(Trick::ALL[n % Trick::ALL.len()]))));
    roles.resize_with(count - 1, || Role::Honest);
    rng.shuffle(&mut roles);
    roles.insert(0, Role::Honest);
    roles
}

/// The recipe of a violin string, of a cello string, or of a viola string, which takes two spools.
fn make_recipe(n: usize, owner: usize, rng: &mut Rng) -> Result<Owned, Refusal> {
    let maker = n / RECIPES_EACH % MAKERS;
    let string = match maker {
        0 => ["cello-c", "cello-g", "cello-d", "cello-a"],
        2 => ["viola-c", "viola-g", "viola-d", "viola-a"],
        _ => ["e", "a", "d", "g"],
    }[n % 4];
    let key = format!("/wind/bench-{owner}/{string}-string").into_bytes();
    let mut version = |sequence| {
        let note = format!("bench {owner}, version {sequence}").into_bytes();
        let bare = Recipe { note, sequence, ..Recipe::default() };
        match maker {
            0 => make_cello(n, bare, rng),
            2 => make_viola(n, bare, rng),
            _ => wind(1 + rng.below(60), bare, rng).to_value(),
        }
    };
    Ok(Owned { owner, key, versions: [version(1)?, version(2)?] })
}

/// The first of all is as long as a recipe can be.
fn make_cello(n: usize, bare: Recipe, rng: &mut Rng) -> Result<Vec<u8>, Broken> {
    let (count, bytes) = match n {
        0 => (SETPOINTS_MAX, VALUE_MAX),
        _ => (LONG.0 + 1 + rng.below(SETPOINTS_MAX - LONG.0), LONG.1 + 1 + rng.below(VALUE_MAX - LONG.1)),
    };
    let mut recipe = wind(count, bare, rng);
    // the note is what brings it to as many bytes
    let missing = bytes.saturating_sub(recipe.to_value()?.len());
    recipe.note.resize(recipe.note.len() + missing, b'.');
    recipe.to_value()
}

/// Every second one is older than its bench's second spool: its first version is for one.
fn make_viola(n: usize, bare: Recipe, rng: &mut Rng) -> Result<Vec<u8>, Broken> {
    let recipe = wind(1 + rng.below(60), bare, rng);
    if n % 2 == 0 && recipe.sequence == 1 {
        return recipe.to_value();
    }
    let count = 1 + rng.below(60);
    Recipe { format: Format::Two, core: some_setpoints(count, rng), ..recipe }.to_value()
}

/// With so many setpoints for its wrap.
fn wind(count: usize, bare: Recipe, rng: &mut Rng) -> Recipe {
    Recipe { wrap: some_setpoints(count, rng), ..bare }
}

fn some_setpoints(count: usize, rng: &mut Rng) -> Vec<Setpoint> {
    let mut trim = 0;
    let setpoint = |n| {
        trim = (trim + rng.below(10_001) as i32 - 5_000).clamp(-20_000, 20_000);
        Setpoint { turn: n as u32 * 90 + rng.below(90) as u32, trim }
    };
    (0..count).map(setpoint).collect()
}
