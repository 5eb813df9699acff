//! Recipes in both formats: a value is note, core, wrap and trailer, told from its end. Format 1 has a trailer of 16 bytes and no core; format 2 (request xi)
//! has one of 24.

use crate::limits;
use crate::wire::{minimal, read_varint};
use std::iter::repeat_with;

/// A recipe's fields. The wrap is the list that both formats have, next to the trailer; the core is format 2's second list, before the wrap.
#[derive(Clone, Debug, PartialEq, Eq)]
pub struct Recipe {
    pub format: u16,
    pub note: Vec<u8>,
    pub core: Vec<Setpoint>,
    pub wrap: Vec<Setpoint>,
    pub sequence: u64,
}

impl Default for Recipe {
    /// The least value of format 1.
    fn default() -> Recipe {
        Recipe { format: 1, note: vec![], core: vec![], wrap: vec![], sequence: 0 }
    }
}

impl Recipe {
    pub fn lists(&self) -> [&[Setpoint]; 2] {
        [&self.core, &self.wrap]
    }
}

#[derive(Clone, Copy, Debug, PartialEq, Eq)]
pub struct Setpoint {
    pub turn: u64,
    /// Millinewtons.
    pub trim: i64,
}

/// What a value or the fields of one can break, by the numbers that a host is told.
#[derive(Clone, Copy, Debug, PartialEq, Eq)]
#[repr(u8)]
pub enum Rule {
    TooShort = 1,
    TooLong = 2,
    UnknownFormat = 3,
    CoreInFormatOne = 4,
    PadNotZero = 5,
    BadDistance = 6,
    TooManySetpoints = 7,
    Unpaired = 8,
    NoSetpoint = 9,
    TurnTooHigh = 10,
    TurnNotRising = 11,
    TrimOutOfRange = 12,
    TrimLeaps = 13,
    BytesLeft = 14,
}

/// Of what a rule is broken.
#[derive(Clone, Copy, Debug, PartialEq, Eq)]
#[repr(u8)]
pub enum Part {
    Whole = 0,
    Wrap = 1,
    Core = 2,
}

/// The first rule that is broken. The setpoint is told for the rules on single ones, and is 0 for the others.
#[derive(Clone, Copy, Debug, PartialEq, Eq)]
pub struct Broken {
    pub rule: Rule,
    pub part: Part,
    pub setpoint: usize,
}

impl Part {
    fn breaks(self, rule: Rule) -> Broken {
        Broken { rule, part: self, setpoint: 0 }
    }
}

/// The limits that have moved since the first rules, so that a value can be read as though one of them weren't there.
#[derive(Clone, Copy)]
struct Bounds {
    value: usize,
    setpoints: usize,
    leap: i64,
}

const OF_NOW: Bounds = Bounds { value: limits::VALUE, setpoints: limits::SETPOINTS, leap: limits::LEAP };

/// Zigzag: 0, -1, 1, -2 .. are 0, 1, 2, 3 ..
pub fn zigzag(trim: i64) -> u64 {
    if trim < 0 {
        trim.unsigned_abs() * 2 - 1
    } else {
        trim as u64 * 2
    }
}

pub fn trim_of(zigzag: u64) -> i64 {
    if zigzag % 2 == 1 {
        -((zigzag / 2) as i64) - 1
    } else {
        (zigzag / 2) as i64
    }
}

// ---- the rules of a list, which are the same for every list of both formats, read or to be written

/// The rule that a setpoint breaks after the one before it in its list, if there is one.
fn broken_by(one: &Setpoint, before: Option<&Setpoint>, bounds: Bounds) -> Option<Rule> {
    let broken = [
        (one.turn > limits::TURN, Rule::TurnTooHigh),
        (before.is_some_and(|before| one.turn <= before.turn), Rule::TurnNotRising),
        (one.trim.abs() > limits::TRIM, Rule::TrimOutOfRange),
        (before.is_some_and(|before| (one.trim - before.trim).abs() > bounds.leap), Rule::TrimLeaps),
    ];
    broken.into_iter().find(|(is, _)| *is).map(|(_, rule)| rule)
}

/// So many setpoints, where the list of them breaks no rule. One that isn't there, or can't be read, is none.
fn judged(part: Part, count: usize, setpoints: impl Iterator<Item = Option<Setpoint>>, bounds: Bounds) -> Result<Vec<Setpoint>, Broken> {
    if count > bounds.setpoints {
        return Err(part.breaks(Rule::TooManySetpoints));
    }
    let mut list: Vec<Setpoint> = Vec::new();
    for (setpoint, one) in setpoints.take(count).enumerate() {
        let breaks = |rule| Broken { rule, part, setpoint };
        let one = one.ok_or(breaks(Rule::NoSetpoint))?;
        if let Some(rule) = broken_by(&one, list.last(), bounds) {
            return Err(breaks(rule));
        }
        list.push(one);
    }
    Ok(list)
}

/// By how much each trim differs from the one before it in the list, however far apart their turns.
pub fn differences(list: &[Setpoint]) -> Vec<i64> {
    list.windows(2).map(|two| two[1].trim - two[0].trim).collect()
}

// ---- reading

/// A minimal varint of one to three bytes, and what follows it.
fn read_minimal(bytes: &[u8]) -> Option<(u64, &[u8])> {
    let (value, end) = read_varint(bytes, 0, bytes.len())?;
    if end <= 3 && bytes[..end] == minimal(value) {
        Some((value, &bytes[end..]))
    } else {
        None
    }
}

/// A setpoint, and what follows it.
fn read_setpoint(bytes: &[u8]) -> Option<(Setpoint, &[u8])> {
    let (turn, bytes) = read_minimal(bytes)?;
    let (zigzag, bytes) = read_minimal(bytes)?;
    Some((Setpoint { turn, trim: trim_of(zigzag) }, bytes))
}

/// A list of so many setpoints from one distance before the value's end to another: it fills that room exactly.
fn read_list(value: &[u8], part: Part, [from, to]: [u64; 2], count: u64, bounds: Bounds) -> Result<Vec<Setpoint>, Broken> {
    let length = value.len();
    if from > length as u64 || from < to {
        return Err(part.breaks(Rule::BadDistance));
    }
    let mut rest = &value[length - from as usize..length - to as usize];
    let next = || {
        let (one, after) = read_setpoint(rest)?;
        rest = after;
        Some(one)
    };
    let list = judged(part, count as usize, repeat_with(next), bounds)?;
    if rest.is_empty() {
        Ok(list)
    } else {
        Err(part.breaks(Rule::BytesLeft))
    }
}

fn low_first(bytes: &[u8]) -> u64 {
    bytes.iter().rev().fold(0, |sum, b| sum << 8 | u64::from(*b))
}

/// How long the trailer of a format is.
fn trailer_of(format: u16) -> usize {
    if format == 2 {
        24
    } else {
        16
    }
}

fn read_within(value: &[u8], bounds: Bounds) -> Result<Recipe, Broken> {
    let whole = |rule| Err(Part::Whole.breaks(rule));
    let length = value.len();
    if length < 16 {
        return whole(Rule::TooShort);
    }
    if length > bounds.value {
        return whole(Rule::TooLong);
    }
    // the number from one distance before the end to another
    let number = |from: usize, to: usize| low_first(&value[length - from..length - to]);
    let format = number(10, 8) as u16;
    if format != 1 && format != 2 {
        return whole(Rule::UnknownFormat);
    }
    if length < trailer_of(format) {
        return whole(Rule::TooShort);
    }
    if format == 2 && number(18, 16) != 0 {
        return whole(Rule::PadNotZero);
    }
    let first = number(16, 12);
    let wrap = read_list(value, Part::Wrap, [first, trailer_of(format) as u64], number(12, 10), bounds)?;
    // in format 1 there is a core of no bytes
    let (second, count) = if format == 2 { (number(24, 20), number(20, 18)) } else { (first, 0) };
    let core = read_list(value, Part::Core, [second, first], count, bounds)?;
    Ok(Recipe { format, note: value[..length - second as usize].to_vec(), core, wrap, sequence: number(8, 0) })
}

/// The recipe that a value is, or the first rule that it breaks (RULES, Recipes).
pub fn read(value: &[u8]) -> Result<Recipe, Broken> {
    read_within(value, OF_NOW)
}

/// What a value says by all rules but those on its length, on the number of its setpoints and on leaps; none where it breaks one.
pub fn read_of_any_size(value: &[u8]) -> Option<Recipe> {
    read_within(value, Bounds { value: usize::MAX, setpoints: usize::MAX, leap: i64::MAX }).ok()
}

/// Whether a value breaks no rule but that against leaps: it may be held from before the rule, and isn't taken any more.
pub fn is_leaper(value: &[u8]) -> bool {
    read(value).is_err() && read_within(value, Bounds { leap: i64::MAX, ..OF_NOW }).is_ok()
}

// ---- writing

/// The fields as a host gives them: turns and trims stand apart, and nothing is sure of them.
#[derive(Clone, Debug, Default, PartialEq, Eq)]
pub struct Fields {
    pub format: u64,
    pub note: Vec<u8>,
    pub core: List,
    pub wrap: List,
    pub sequence: u64,
}

#[derive(Clone, Debug, Default, PartialEq, Eq)]
pub struct List {
    pub turns: Vec<u32>,
    pub trims: Vec<i32>,
}

impl List {
    fn is_empty(&self) -> bool {
        self.turns.is_empty() && self.trims.is_empty()
    }

    fn judged(&self, part: Part) -> Result<Vec<Setpoint>, Broken> {
        if self.turns.len() != self.trims.len() {
            return Err(part.breaks(Rule::Unpaired));
        }
        let setpoints = self.turns.iter().zip(&self.trims).map(|(turn, trim)| Setpoint { turn: u64::from(*turn), trim: i64::from(*trim) });
        judged(part, self.turns.len(), setpoints.map(Some), OF_NOW)
    }
}

impl From<&[Setpoint]> for List {
    fn from(list: &[Setpoint]) -> List {
        List { turns: list.iter().map(|s| s.turn as u32).collect(), trims: list.iter().map(|s| s.trim as i32).collect() }
    }
}

impl From<&Recipe> for Fields {
    fn from(recipe: &Recipe) -> Fields {
        let [core, wrap] = recipe.lists().map(List::from);
        Fields { format: u64::from(recipe.format), note: recipe.note.clone(), core, wrap, sequence: recipe.sequence }
    }
}

pub fn write_setpoints(list: &[Setpoint]) -> Vec<u8> {
    list.iter().flat_map(|s| [minimal(s.turn), minimal(zigzag(s.trim))].concat()).collect()
}

/// The value that has these parts, each list as its bytes and its count; no rule is judged here.
pub fn join(format: u16, note: &[u8], core: (&[u8], usize), wrap: (&[u8], usize), sequence: u64) -> Vec<u8> {
    let first = wrap.0.len() + trailer_of(format);
    let mut value = [note, core.0, wrap.0].concat();
    if format == 2 {
        value.extend(((first + core.0.len()) as u32).to_le_bytes());
        value.extend((core.1 as u16).to_le_bytes());
        value.extend([0, 0]);
    }
    value.extend((first as u32).to_le_bytes());
    value.extend((wrap.1 as u16).to_le_bytes());
    value.extend(format.to_le_bytes());
    value.extend(sequence.to_le_bytes());
    value
}

/// The value that says a recipe; no rule is judged here.
pub fn write(recipe: &Recipe) -> Vec<u8> {
    let Recipe { format, note, core, wrap, sequence } = recipe;
    join(*format, note, (&write_setpoints(core), core.len()), (&write_setpoints(wrap), wrap.len()), *sequence)
}

/// The value that has these fields, or the first rule for which no recipe has them.
pub fn write_fields(fields: &Fields) -> Result<Vec<u8>, Broken> {
    let whole = |rule| Err(Part::Whole.breaks(rule));
    if fields.format != 1 && fields.format != 2 {
        return whole(Rule::UnknownFormat);
    }
    if fields.format == 1 && !fields.core.is_empty() {
        return Err(Part::Core.breaks(Rule::CoreInFormatOne));
    }
    let (wrap, core) = (fields.wrap.judged(Part::Wrap)?, fields.core.judged(Part::Core)?);
    let value = write(&Recipe { format: fields.format as u16, note: fields.note.clone(), core, wrap, sequence: fields.sequence });
    if value.len() > limits::VALUE {
        return whole(Rule::TooLong);
    }
    Ok(value)
}

// ---- what a host is told

/// A recipe in seven numbers: its format; where core, wrap and trailer start; how many setpoints core and wrap have; its sequence.
pub fn numbers(value: &[u8]) -> Result<[u64; 7], Broken> {
    let Recipe { format, note, core, wrap, sequence } = read(value)?;
    let core_at = note.len();
    let wrap_at = core_at + write_setpoints(&core).len();
    let trailer_at = wrap_at + write_setpoints(&wrap).len();
    Ok([u64::from(format), core_at as u64, wrap_at as u64, trailer_at as u64, core.len() as u64, wrap.len() as u64, sequence])
}

/// The setpoints of a recipe's core or wrap, as many as fit into each of the two; what is past them stays.
pub fn setpoints_to(value: &[u8], core: bool, turns: &mut [u32], trims: &mut [i32]) -> Result<(), Broken> {
    let recipe = read(value)?;
    let list = if core { recipe.core } else { recipe.wrap };
    turns.iter_mut().zip(&list).for_each(|(turn, one)| *turn = one.turn as u32);
    trims.iter_mut().zip(&list).for_each(|(trim, one)| *trim = one.trim as i32);
    Ok(())
}

/// Writes the value with these fields as far as the room goes, and tells its whole length.
pub fn write_to(room: &mut [u8], fields: &Fields) -> Result<usize, Broken> {
    let value = write_fields(fields)?;
    room.iter_mut().zip(&value).for_each(|(there, byte)| *there = *byte);
    Ok(value.len())
}

// ---- rank

/// The last eight bytes, whether or not the value is a recipe.
pub fn sequence_of(value: &[u8]) -> u64 {
    low_first(&value[value.len().saturating_sub(8)..])
}

/// "Rank: higher sequence, then bytewise order (a prefix is lower)", whatever the formats.
pub fn outranks(a: &[u8], b: &[u8]) -> bool {
    (sequence_of(a), a) > (sequence_of(b), b)
}
