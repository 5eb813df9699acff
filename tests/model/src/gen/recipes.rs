//! Recipes in both formats, what is nearly one, and fields to be written.

use super::Rng;
use crate::limits;
use crate::recipe::{self, Fields, List, Recipe, Setpoint};
use crate::wire::minimal;
use std::collections::BTreeSet;

/// The limits before request iii. A box that isn't changed refuses what is just above them.
pub const VALUE_BEFORE: usize = 2_048;
const SETPOINTS_BEFORE: usize = 200;

// ---- recipes

/// A recipe that keeps the rules, with turns, trims and their differences, its setpoints and its length at their limits now and then.
pub fn recipe(rng: &mut Rng) -> Recipe {
    let (format, few_bytes) = (some_format(rng), rng.one_in(3));
    let (core, wrap) = if few_bytes && rng.one_in(12) { (limits::SETPOINTS, limits::SETPOINTS) } else { (some_count(rng), some_count(rng)) };
    let core = if format == 2 { some_list(rng, core, few_bytes, None) } else { vec![] };
    let wrap = some_list(rng, wrap, few_bytes, None);
    recipe_of(rng, format, core, wrap)
}

fn some_format(rng: &mut Rng) -> u16 {
    *rng.pick(&[1, 2])
}

/// How many setpoints: mostly few, else as many as there may be or could be before request iii, about that, or any number between.
fn some_count(rng: &mut Rng) -> usize {
    match rng.below(14) {
        0 => limits::SETPOINTS,
        1 => limits::SETPOINTS - 1,
        2 => SETPOINTS_BEFORE + rng.below(2),
        3 => rng.between(SETPOINTS_BEFORE + 1, limits::SETPOINTS),
        _ => *rng.pick(&[0, 0, 1, 1, 2, 3, 10, 50]),
    }
}

/// What would be a recipe but for one leap, between any two neighbours of its wrap or its core.
pub fn leaper(rng: &mut Rng) -> Recipe {
    let format = some_format(rng);
    let count = *rng.pick(&[2, 2, 3, 3, 4, 10, 50, limits::SETPOINTS]);
    let (few_bytes, leap_to) = (rng.one_in(4), rng.size(1, count - 1));
    let leaps = some_list(rng, count, few_bytes, Some(leap_to));
    if format == 1 {
        return recipe_of(rng, format, vec![], leaps);
    }
    // short enough to fit beside it, so that nothing is taken away from the one that leaps
    let count = *rng.pick(&[0, 1, 3, 50]);
    let other = some_list(rng, count, few_bytes, None);
    let (core, wrap) = if rng.one_in(2) { (leaps, other) } else { (other, leaps) };
    recipe_of(rng, format, core, wrap)
}

/// A recipe with these lists, as far as they fit: of the longer one setpoints are left out until they do.
fn recipe_of(rng: &mut Rng, format: u16, core: Vec<Setpoint>, wrap: Vec<Setpoint>) -> Recipe {
    let sequence = match rng.below(4) {
        0 => rng.number(),
        1 => *rng.pick(&[0, 255, 256, u64::MAX]),
        _ => rng.below(6) as u64,
    };
    let mut made = Recipe { format, note: vec![], core, wrap, sequence };
    while recipe::write(&made).len() > limits::VALUE {
        let longer = if made.core.len() > made.wrap.len() { &mut made.core } else { &mut made.wrap };
        longer.truncate(longer.len() - 10);
    }
    let n = note_length(rng, limits::VALUE - recipe::write(&made).len());
    made.note = rng.bytes(n);
    made
}

/// So many setpoints; of few bytes if two such lists are to fit into a value, or one into a value of before request iii. The trim with the number `leap_to`
/// leaps.
fn some_list(rng: &mut Rng, count: usize, few_bytes: bool, leap_to: Option<usize>) -> Vec<Setpoint> {
    let mut trims = some_trims(rng, count, leap_to);
    if few_bytes && leap_to.is_none() {
        trims.iter_mut().for_each(|trim| *trim %= 64);
    }
    let turns = some_turns(rng, count, few_bytes);
    turns.into_iter().zip(trims).map(|(turn, trim)| Setpoint { turn, trim }).collect()
}

/// So many turns: any, or close together.
fn some_turns(rng: &mut Rng, count: usize, close: bool) -> BTreeSet<u64> {
    let most = if close { 2 * limits::SETPOINTS } else { limits::TURN as usize };
    let mut turns = BTreeSet::new();
    while turns.len() < count {
        turns.insert(match rng.below(5) {
            0 => *rng.pick(&[0, 1, 127, 128, 16_383, 16_384, 999_999, limits::TURN]),
            1 => rng.below(300) as u64,
            _ => rng.below(most + 1) as u64,
        });
    }
    turns
}

/// The length of a note where there is so much room for one: mostly a short one, else one that makes the value as long as it may be or could be before
/// request iii, or about that, or any.
fn note_length(rng: &mut Rng, room: usize) -> usize {
    let more = limits::VALUE - VALUE_BEFORE;
    match rng.below(24) {
        0..=1 => room,
        2 => room.saturating_sub(1),
        3..=4 => room.saturating_sub(more - rng.below(2)),
        5 => rng.between(0, room),
        _ => rng.size(0, room.min(40)),
    }
}

/// Trims that don't leap, but for the one with the number `leap_to`.
fn some_trims(rng: &mut Rng, count: usize, leap_to: Option<usize>) -> Vec<i64> {
    let mut trims: Vec<i64> = Vec::new();
    for i in 0..count {
        trims.push(match trims.last() {
            None => some_trim(rng),
            Some(before) if leap_to == Some(i) => far_trim(rng, *before),
            Some(before) => near_trim(rng, *before),
        });
    }
    trims
}

fn some_trim(rng: &mut Rng) -> i64 {
    match rng.below(4) {
        0 => *rng.pick(&[0, -1, 1, -64, 63, 64, -20_000, 20_000, -19_999, 19_999]),
        _ => rng.below(40_001) as i64 - 20_000,
    }
}

/// A trim that may stand next to another one: a little or just 5,000 away, or as far towards some trim as may be.
fn near_trim(rng: &mut Rng, before: i64) -> i64 {
    let by = match rng.below(4) {
        0 => *rng.pick(&[0, 1, -1, 4_999, -4_999, 5_000, -5_000]),
        1 => some_trim(rng) - before,
        _ => rng.below(10_001) as i64 - 5_000,
    };
    (before + by.clamp(-limits::LEAP, limits::LEAP)).clamp(-limits::TRIM, limits::TRIM)
}

/// A trim that may not stand next to another one: 5,001 away, or more, up to the other end.
fn far_trim(rng: &mut Rng, before: i64) -> i64 {
    let mut trims = vec![before - 5_001, before + 5_001, -20_000, 20_000, some_trim(rng)];
    trims.retain(|trim| trim.abs() <= limits::TRIM && (trim - before).abs() > limits::LEAP);
    *rng.pick(&trims)
}

/// A value that is a recipe.
pub fn recipe_value(rng: &mut Rng) -> Vec<u8> {
    recipe::write(&recipe(rng))
}

/// A value that would be a recipe if it didn't leap.
pub fn leaper_value(rng: &mut Rng) -> Vec<u8> {
    recipe::write(&leaper(rng))
}

/// A value of 3,072 bytes that is a recipe.
pub fn largest_recipe(rng: &mut Rng) -> Vec<u8> {
    let mut made = recipe(rng);
    made.note.clear();
    let room = limits::VALUE - recipe::write(&made).len();
    made.note = rng.bytes(room);
    recipe::write(&made)
}

// ---- broken lists

/// A varint that isn't minimal, with a value that a minimal one could have; often short enough for a setpoint.
fn padded(rng: &mut Rng, value: u64) -> Vec<u8> {
    let mut bytes = minimal(value);
    let least = bytes.len() + 1;
    let length = if rng.one_in(2) { least } else { rng.between(least, 10) };
    *bytes.last_mut().expect("a byte") |= 0x80;
    bytes.resize(length - 1, 0x80);
    bytes.push(0);
    bytes
}

/// Setpoints of which one has a turn or a trim that isn't minimal.
fn padded_setpoints(rng: &mut Rng, list: &[Setpoint], i: usize) -> Vec<u8> {
    let (turn, trim) = (list[i].turn, recipe::zigzag(list[i].trim));
    let one = if rng.one_in(2) { [padded(rng, turn), minimal(trim)] } else { [minimal(turn), padded(rng, trim)] };
    [recipe::write_setpoints(&list[..i]), one.concat(), recipe::write_setpoints(&list[i + 1..])].concat()
}

/// A turn or a trim that breaks a rule, or both; some are just past the limit, some the first that need a fourth byte, or just under that.
fn break_numbers(rng: &mut Rng, list: &mut [Setpoint], i: usize) {
    let before = if i > 0 { list[i - 1] } else { list[i] };
    let which = rng.below(3);
    if which != 0 {
        list[i].turn = *rng.pick(&[limits::TURN + 1, limits::TURN + 1, (1 << 21) - 1, 1 << 21, u64::MAX, before.turn, before.turn.saturating_sub(1)]);
    }
    if which != 1 {
        let over = *rng.pick(&[20_001, -20_001, 20_001, -20_001, (1 << 20) - 1, -(1 << 20), 1 << 20, 1 << 40, before.trim + 5_001, before.trim - 5_001]);
        if rng.one_in(2) {
            // the others next to it, so that 20,001 is no leap
            list.iter_mut().for_each(|s| s.trim = over.clamp(-limits::TRIM, limits::TRIM));
        }
        list[i].trim = over;
    }
}

/// Setpoints of a recipe with a rule broken or two, and how many there are said to be.
fn broken_setpoints(rng: &mut Rng, mut list: Vec<Setpoint>) -> (Vec<u8>, usize) {
    if list.is_empty() {
        list.push(Setpoint { turn: 5, trim: 0 });
    }
    let i = rng.below(list.len());
    let mut extra = Vec::new();
    match rng.below(10) {
        0 => return (padded_setpoints(rng, &list, i), list.len()),
        1..=4 => break_numbers(rng, &mut list, i),
        5 => list.push(list[list.len() - 1]),
        6 => list.reverse(),
        7 => extra = vec![0x80 | rng.byte(), 0x00, 0x00],
        _ => extra = vec![*rng.pick(&[0x80, 0xff, 0x05])],
    }
    // what is past the last one may be said to be one more
    let more = if extra.is_empty() { 0 } else { rng.below(2) };
    ([recipe::write_setpoints(&list), extra].concat(), list.len() + more)
}

/// A recipe's value with one of its lists broken.
fn with_broken_list(rng: &mut Rng, good: &Recipe) -> Vec<u8> {
    let [core, wrap] = good.lists().map(|list| (recipe::write_setpoints(list), list.len()));
    let in_core = good.format == 2 && rng.one_in(2);
    let (bytes, count) = broken_setpoints(rng, good.lists()[usize::from(!in_core)].to_vec());
    let (core, wrap) = if in_core { (&(bytes, count), &wrap) } else { (&core, &(bytes, count)) };
    recipe::join(good.format, &good.note, (&core.0, core.1), (&wrap.0, wrap.1), good.sequence)
}

// ---- broken values

/// A value of which one thing is at its limit or one past it, all else being right.
fn at_a_limit(rng: &mut Rng) -> Vec<u8> {
    let (format, sequence, over) = (some_format(rng), rng.below(6) as u64, rng.below(2));
    let empty = Recipe { format, sequence, ..Recipe::default() };
    let least = recipe::write(&empty).len();
    match rng.below(12) {
        0..=5 => recipe::write(&list_at_a_limit(rng, empty, over)),
        6..=7 => recipe::write(&Recipe { note: vec![b'n'; limits::VALUE - least + over], ..empty }),
        8 => recipe::write(&Recipe { note: vec![b'n'; 65_536 * over], ..empty }),
        9 => recipe::write(&beside_each_other(rng, empty)),
        // of the least value all but the first byte, or all but some
        10 => recipe::write(&empty)[over..].to_vec(),
        _ => recipe::write(&empty)[rng.below(least)..].to_vec(),
    }
}

/// A recipe whose wrap or core has one thing at its limit or one past it; the other list is empty or short.
fn list_at_a_limit(rng: &mut Rng, mut made: Recipe, over: usize) -> Recipe {
    let one = |turn: u64, trim: i64| vec![Setpoint { turn, trim }];
    let list = match rng.below(6) {
        0..=1 => {
            // few bytes to a setpoint, or all six that it can have
            let (first, apart, trim) = *rng.pick(&[(0, 1, 0), (16_384, 2_000, 20_000)]);
            (0..limits::SETPOINTS + over).map(|i| Setpoint { turn: first + apart * i as u64, trim }).collect()
        }
        2 => one(limits::TURN + over as u64, 0),
        3 => one(0, *rng.pick(&[limits::TRIM + over as i64, -limits::TRIM - over as i64])),
        _ => {
            let by = limits::LEAP + over as i64;
            let low = rng.below((40_001 - by) as usize) as i64 - limits::TRIM;
            let (first, second) = if rng.one_in(2) { (low, low + by) } else { (low + by, low) };
            [one(0, first), one(limits::TURN, second)].concat()
        }
    };
    let other = if made.format == 2 && rng.one_in(2) { one(5, -1) } else { vec![] };
    (made.core, made.wrap) = if made.format == 2 && rng.one_in(2) { (list, other) } else { (other, list) };
    made
}

/// Lists that would break a rule if they were one: a leap or a turn that doesn't rise from the core's last to the wrap's first, or 400 in each.
fn beside_each_other(rng: &mut Rng, mut made: Recipe) -> Recipe {
    made.format = 2;
    let (low, high) = (Setpoint { turn: 0, trim: -limits::TRIM }, Setpoint { turn: limits::TURN, trim: limits::TRIM });
    let all: Vec<Setpoint> = (0..limits::SETPOINTS as u64).map(|turn| Setpoint { turn, trim: 0 }).collect();
    (made.core, made.wrap) = match rng.below(4) {
        0 => (vec![low], vec![high]),
        1 => (vec![high], vec![low]),
        2 => (vec![low], vec![low]),
        _ => (all.clone(), all),
    };
    made
}

/// Another distance than a recipe has: just past what it may be, or about what it or the other list's is, or any at a limit.
fn other_distance(rng: &mut Rng, length: usize, first: u32, second: u32) -> u32 {
    let length = length as u32;
    if rng.one_in(2) {
        return *rng.pick(&[15, 16, 23, first - 1, length + 1, u32::MAX - 23]);
    }
    let d = *rng.pick(&[first, second]);
    *rng.pick(&[0, 24, length, u32::MAX, d, d - 1, d + 1, d + 2, d ^ 256, d ^ 1 << 16])
}

/// Another count than a recipe's list has.
fn other_count(rng: &mut Rng, list: &[Setpoint]) -> u16 {
    let (count, most) = (list.len() as u16, limits::SETPOINTS as u16);
    *rng.pick(&[0, 1, most, most + 1, count ^ 256, count.swap_bytes(), count + 1, count.saturating_sub(1), u16::MAX])
}

/// Another number where the trailer of a recipe's value says one.
fn write_into_trailer(rng: &mut Rng, good: &Recipe, value: &mut [u8]) {
    let (end, two) = (value.len(), good.format == 2);
    let distance = |from: usize| value[end - from..end - from + 4].iter().rev().fold(0, |sum, byte| sum << 8 | u32::from(*byte));
    let (first, second) = (distance(16), if two { distance(24) } else { distance(16) });
    let mut write = |from: usize, bytes: &[u8]| value[end - from..end - from + bytes.len()].copy_from_slice(bytes);
    match rng.below(if two { 10 } else { 4 }) {
        0..=1 => write(16, &other_distance(rng, end, first, second).to_le_bytes()),
        2 => write(12, &other_count(rng, &good.wrap).to_le_bytes()),
        3 => write(10, &rng.pick(&[0u16, 1, 2, 3, 256, 257, 258, u16::MAX]).to_le_bytes()),
        4..=5 => write(24, &other_distance(rng, end, first, second).to_le_bytes()),
        6 => write(20, &other_count(rng, &good.core).to_le_bytes()),
        _ => {
            let byte = rng.byte();
            write(rng.between(17, 18), &[*rng.pick(&[1, 128, byte])]);
        }
    }
}

/// A value that is nearly a recipe; by chance it may still be one.
pub fn damaged_recipe(rng: &mut Rng) -> Vec<u8> {
    if rng.one_in(3) {
        return at_a_limit(rng);
    }
    let good = recipe(rng);
    if rng.below(5) < 2 {
        return with_broken_list(rng, &good);
    }
    // a broken list too now and then: which rule comes first then?
    let mut value = if rng.one_in(4) { with_broken_list(rng, &good) } else { recipe::write(&good) };
    let end = value.len();
    match rng.below(12) {
        0 => value.truncate(rng.below(end)),
        1..=5 | 11 => write_into_trailer(rng, &good, &mut value),
        6 => value.insert(0, 0),
        7 => value.resize(rng.between(limits::VALUE - 1, limits::VALUE + 12), 0),
        8 => value[rng.below(end)] ^= 1 << rng.below(8),
        9 => value = leaper_value(rng),
        // the last bytes alone
        _ => drop(value.drain(..end - rng.between(15, 25).min(end))),
    }
    value
}

/// A value to be read: a recipe, one that is nearly one, or noise, some with a trailer of a known format.
pub fn value_to_read(rng: &mut Rng) -> Vec<u8> {
    match rng.below(10) {
        0 => {
            let n = rng.size(0, 100);
            let mut value = rng.bytes(n);
            if n >= 10 && rng.one_in(2) {
                value[n - 10..n - 8].copy_from_slice(&some_format(rng).to_le_bytes());
            }
            value
        }
        1..=5 => damaged_recipe(rng),
        _ => recipe_value(rng),
    }
}

// ---- fields

/// Fields to be written: those of a recipe, or of none.
pub fn fields(rng: &mut Rng) -> Fields {
    let made = if rng.one_in(10) { leaper(rng) } else { recipe(rng) };
    let mut fields = Fields::from(&made);
    for _ in 0..*rng.pick(&[0, 0, 1, 1, 1, 2]) {
        break_fields(rng, &mut fields);
    }
    fields
}

/// Breaks a rule of fields to be written, or goes just up to it.
fn break_fields(rng: &mut Rng, fields: &mut Fields) {
    match rng.below(12) {
        0 => fields.format = *rng.pick(&[0, 1, 2, 3, 257, 258, 65_537, 65_538, (1 << 32) + 1, (1 << 32) + 2, u64::MAX]),
        1 => {
            fields.format = 1;
            fields.core = List { turns: vec![7; rng.below(2)], trims: vec![7; rng.below(2)] };
        }
        2..=3 => {
            let list = recipe::write_fields(&Fields { note: vec![], ..fields.clone() });
            let room = limits::VALUE - list.map_or(0, |value| value.len());
            fields.note = vec![b'n'; *rng.pick(&[room, room + 1, room + 1, room + 100, limits::VALUE, 65_536 + room])];
        }
        4 => {
            fields.format = 2;
            let (core, wrap) = (fields_list_at_a_limit(rng), fields_list_at_a_limit(rng));
            (fields.core, fields.wrap) = (core, wrap);
        }
        _ => {
            let in_core = fields.format == 2 && rng.one_in(2);
            break_list(rng, if in_core { &mut fields.core } else { &mut fields.wrap });
        }
    }
}

/// As many setpoints as there may be, or one more, of few bytes or of as many as can be.
fn fields_list_at_a_limit(rng: &mut Rng) -> List {
    let count = *rng.pick(&[limits::SETPOINTS, limits::SETPOINTS, limits::SETPOINTS + 1, 656]);
    let (first, apart, trim) = *rng.pick(&[(0, 1, 0), (16_384, 1_000, -20_000)]);
    List { turns: (0..count as u32).map(|i| first + apart * i).collect(), trims: vec![trim; count] }
}

/// Breaks a rule of a list to be written, or goes just up to it; numbers are any that a host can say.
fn break_list(rng: &mut Rng, list: &mut List) {
    if list.turns.len() < 2 || list.trims.len() < 2 {
        *list = List { turns: vec![3, 9], trims: vec![-1, 1] };
    }
    let i = rng.between(1, list.turns.len().min(list.trims.len()) - 1);
    let (turn, trim) = (list.turns[i - 1], list.trims[i - 1]);
    match rng.below(9) {
        0 => drop(list.turns.pop()),
        1 => drop(list.trims.pop()),
        2 => *list = fields_list_at_a_limit(rng),
        3 => list.turns[i] = *rng.pick(&[turn, turn.saturating_sub(1), 0]),
        4 => *list.turns.last_mut().expect("two") = *rng.pick(&[1_000_000, 1_000_001, 1_000_001, 1 << 21, 1 << 31, u32::MAX]),
        5 => {
            list.trims.fill(*rng.pick(&[20_000, -20_000]));
            list.trims[i] = *rng.pick(&[20_001, -20_001, 20_001, -20_001, i32::MIN, i32::MAX]);
        }
        6 => (list.trims[i - 1], list.trims[i]) = *rng.pick(&[(i32::MIN, i32::MAX), (i32::MAX, i32::MIN), (0, i32::MIN), (-1, i32::MAX), (-20_000, 20_000)]),
        7 => list.trims[i] = trim.saturating_add(*rng.pick(&[5_000, -5_000, 5_001, -5_001])),
        _ => (list.turns[i], list.trims[i]) = (rng.number() as u32, rng.number() as i32),
    }
}
