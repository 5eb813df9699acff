//! Request xi: what a long run has to meet of recipes in both formats: each rule, of each list, by all that read and by the writer; both sides of each limit;
//! recipes of every kind that are read, written, put, found and served; ranks across formats. It is told from the records before a call, from the call and from
//! what it gave.

use crate::answer::Answer;
use crate::calls::Call;
use crate::coverage::whole_body;
use crate::longer::said;
use crate::twin::Twin;
use starterbell_model::message::{self, Message};
use starterbell_model::recipe::{self, differences, is_leaper, outranks, sequence_of, Broken, Fields, List, Part, Recipe, Rule, Setpoint};
use starterbell_model::records;
use starterbell_model::steps::Step;

/// Whether something was met, and what.
type Case = (bool, &'static str);

// ---- rules that are broken

/// The rules of a whole value.
macro_rules! whole_rules {
    ($call:literal) => {
        [
            concat!($call, ": 9 for fewer than 16 bytes"),
            concat!($call, ": 9 for 16 to 23 bytes in format 2"),
            concat!($call, ": 9 for too many bytes in format 1"),
            concat!($call, ": 9 for too many bytes in format 2"),
            concat!($call, ": 9 for an unknown format"),
            concat!($call, ": 9 for the first pad byte alone"),
            concat!($call, ": 9 for the second pad byte alone"),
        ]
    };
}

/// The rules of a list that is read, in the order of READ_RULES, for each list of both formats.
macro_rules! list_rules {
    ($call:literal) => { list_rules!($call, "the wrap in format 1", "the wrap in format 2", "the core") };
    ($call:literal, $($list:literal),*) => {
        [$([
            concat!($call, ": 9 for the distance of ", $list),
            concat!($call, ": 9 for too many setpoints in ", $list),
            concat!($call, ": 9 for what is no setpoint in ", $list),
            concat!($call, ": 9 for a turn too high in ", $list),
            concat!($call, ": 9 for a turn that doesn't rise in ", $list),
            concat!($call, ": 9 for a trim out of range in ", $list),
            concat!($call, ": 9 for a leap in ", $list),
            concat!($call, ": 9 for bytes left in ", $list),
        ]),*]
    };
}

/// The rules of a list that is to be written, in the order of WRITE_RULES, for each list of both formats.
macro_rules! written_list_rules {
    ($($list:literal),*) => {
        [$([
            concat!("recipe_write: 9 for more turns than trims in ", $list),
            concat!("recipe_write: 9 for more trims than turns in ", $list),
            concat!("recipe_write: 9 for too many setpoints in ", $list),
            concat!("recipe_write: 9 for a turn too high in ", $list),
            concat!("recipe_write: 9 for a turn that doesn't rise in ", $list),
            concat!("recipe_write: 9 for a trim out of range in ", $list),
            concat!("recipe_write: 9 for a leap in ", $list),
        ]),*]
    };
}

const READ_RULES: [Rule; 8] = [
    Rule::BadDistance,
    Rule::TooManySetpoints,
    Rule::NoSetpoint,
    Rule::TurnTooHigh,
    Rule::TurnNotRising,
    Rule::TrimOutOfRange,
    Rule::TrimLeaps,
    Rule::BytesLeft,
];
const WRITE_RULES: [Rule; 5] = [Rule::TooManySetpoints, Rule::TurnTooHigh, Rule::TurnNotRising, Rule::TrimOutOfRange, Rule::TrimLeaps];

/// What reads values, as the first four of KINDS.
const WHOLE: [[&str; 7]; 4] = [whole_rules!("recipe_read"), whole_rules!("recipe_setpoints"), whole_rules!("put"), whole_rules!("receive")];
const LISTS: [[[&str; 8]; 3]; 4] = [list_rules!("recipe_read"), list_rules!("recipe_setpoints"), list_rules!("put"), list_rules!("receive")];
const WRITTEN_LISTS: [[&str; 7]; 3] = written_list_rules!("the wrap in format 1", "the wrap in format 2", "the core");

/// Which list of LISTS a part is.
fn list_of(part: Part, format: u64) -> usize {
    match part {
        Part::Wrap if format == 1 => 0,
        Part::Wrap => 1,
        _ => 2,
    }
}

/// The number of so many bytes at a distance before the end; none where there aren't so many.
fn number(value: &[u8], distance: usize, bytes: usize) -> Option<u64> {
    let at = value.len().checked_sub(distance)?;
    Some(value[at..at + bytes].iter().rev().fold(0, |sum, byte| sum << 8 | u64::from(*byte)))
}

fn format_of(value: &[u8]) -> Option<u64> {
    number(value, 10, 2)
}

/// The rule for which a reader refuses a value.
fn refused(reader: usize, value: &[u8]) -> Vec<Case> {
    let Err(Broken { rule, part, .. }) = recipe::read(value) else { return vec![] };
    let (names, format) = (&WHOLE[reader], format_of(value));
    if let Some(i) = READ_RULES.iter().position(|r| *r == rule) {
        return vec![(true, LISTS[reader][list_of(part, format.unwrap_or(0))][i])];
    }
    vec![
        (value.len() < 16, names[0]),
        (rule == Rule::TooShort && value.len() >= 16, names[1]),
        (rule == Rule::TooLong && format == Some(1), names[2]),
        (rule == Rule::TooLong && format == Some(2), names[3]),
        (rule == Rule::UnknownFormat, names[4]),
        (rule == Rule::PadNotZero && number(value, 17, 1) == Some(0), names[5]),
        (rule == Rule::PadNotZero && number(value, 18, 1) == Some(0), names[6]),
    ]
}

// ---- recipes that are taken

macro_rules! kinds {
    ($call:literal) => {
        [
            concat!($call, ": a recipe of format 1"),
            concat!($call, ": a recipe of format 2 with core and wrap"),
            concat!($call, ": a recipe of format 2 with an empty core"),
            concat!($call, ": a recipe of format 2 with an empty wrap"),
            concat!($call, ": a recipe of format 2 with no setpoint"),
            concat!($call, ": a recipe of format 2 with a note"),
            concat!($call, ": a recipe of format 2 without a note"),
            concat!($call, ": a recipe of format 2 with 3,072 bytes"),
            concat!($call, ": a recipe of format 2 with 400 setpoints in each list"),
        ]
    };
}

const READ: usize = 0;
const SETPOINTS: usize = 1;
const PUT: usize = 2;
const RECEIVE: usize = 3;
const FIND: usize = 4;
const SERVED: usize = 5;
const WRITE: usize = 6;
const KINDS: [[&str; 9]; 7] =
    [kinds!("recipe_read"), kinds!("recipe_setpoints"), kinds!("put"), kinds!("receive"), kinds!("find"), kinds!("receive, GET_VALUE"), kinds!("recipe_write")];

fn kinds(call: usize, value: &[u8]) -> Vec<Case> {
    let Ok(Recipe { format, note, core, wrap, .. }) = recipe::read(value) else { return vec![] };
    let (names, two) = (&KINDS[call], format == 2);
    vec![
        (format == 1, names[0]),
        (two && !core.is_empty() && !wrap.is_empty(), names[1]),
        (two && core.is_empty() && !wrap.is_empty(), names[2]),
        (two && !core.is_empty() && wrap.is_empty(), names[3]),
        (two && core.is_empty() && wrap.is_empty(), names[4]),
        (two && !note.is_empty(), names[5]),
        (two && note.is_empty(), names[6]),
        (two && value.len() == 3_072, names[7]),
        (two && core.len() == 400 && wrap.len() == 400, names[8]),
    ]
}

// ---- everything else

const MET: [&str; 63] = [
    "recipe_read: 9 for a first distance of 15 in format 1",
    "recipe_read: 9 for a first distance of 23 in format 2",
    "recipe_read: 9 for a first distance of 16 in format 2",
    "recipe_read: 9 for a first distance one over the length",
    "recipe_read: 9 for a second distance one under the first",
    "recipe_read: 9 for a second distance one over the length",
    "recipe_read: 9 for a second distance near 2^32",
    "recipe_read: 9 for format 0",
    "recipe_read: 9 for format 3",
    "recipe_read: 9 for format 257",
    "recipe_read: 9 for format 258",
    "recipe_read: 9 for 23 bytes in format 2",
    "recipe_read: 24 bytes in format 2",
    "recipe_read: 16 to 23 bytes in format 1",
    "recipe_read: 9 for 3,073 bytes in format 2",
    "recipe_read: 400 setpoints in the core",
    "recipe_read: 400 setpoints in the wrap of format 2",
    "recipe_read: 9 for 401 in the core",
    "recipe_read: 9 for 401 in the wrap of format 2",
    "recipe_read: trims exactly 5,000 apart in the core",
    "recipe_read: trims exactly 5,000 apart in the wrap of format 2",
    "recipe_read: 9 for trims 5,001 apart in the core",
    "recipe_read: 9 for trims 5,001 apart in the wrap of format 2",
    "recipe_read: trims leap from core to wrap",
    "recipe_read: turns don't rise from core to wrap",
    "recipe_read: 9 for a later setpoint of the core",
    "recipe_read: 9 for a later setpoint of the wrap",
    "recipe_read: the wrap is told where the core is broken too",
    "recipe_setpoints: the core of format 1",
    "recipe_setpoints: the core by a number other than 1",
    "recipe_setpoints: fewer turns than there are",
    "recipe_setpoints: fewer trims than there are",
    "recipe_setpoints: more turns than there are",
    "recipe_setpoints: more trims than there are",
    "recipe_setpoints: other numbers of turns and of trims",
    "recipe_setpoints: 9 where some were lent",
    "recipe_write: 9 for an unknown format",
    "recipe_write: 9 for a format of 65,537 or 65,538",
    "recipe_write: 9 for a format of 2^32 + 1 or 2^32 + 2",
    "recipe_write: 9 for turns of a core in format 1",
    "recipe_write: 9 for trims of a core in format 1",
    "recipe_write: 9 for both of a core in format 1",
    "recipe_write: 9 for 3,073 bytes in format 1",
    "recipe_write: 9 for 3,073 bytes in format 2",
    "recipe_write: 9 for lists too long without a note",
    "recipe_write: 9 for trims at both ends of their type",
    "recipe_write: 9 for a turn, where its trim is wrong too",
    "recipe_write: 9 for a later setpoint of the core",
    "recipe_write: 9 for a later setpoint of the wrap",
    "recipe_write: the wrap is told where the core is broken too",
    "recipe_write: a room of no bytes",
    "recipe_write: a room one byte short",
    "recipe_write: a room of just so many bytes",
    "recipe_write: a room of more bytes",
    "recipe_write: 9 with a room",
    "put: the bytes of a held recipe of format 2",
    "receive: the bytes of a held recipe of format 2",
    "put: 9 for the bytes of a held leaper whose core leaps",
    "receive: 9 for the bytes of a held leaper whose core leaps",
    "find: a held leaper whose core leaps",
    "receive: GET_VALUE is served a held leaper whose core leaps",
    "receive: the echo of a recipe of format 1",
    "receive: the echo of a recipe of format 2",
];

/// Offers of one format where the other is held, by which of the two decides.
macro_rules! ranks {
    ($call:literal) => {
        [
            [concat!($call, ": format 2 is taken over 1 by its sequence"), concat!($call, ": format 2 is taken over 1 by its bytes")],
            [concat!($call, ": format 1 is taken over 2 by its sequence"), concat!($call, ": format 1 is taken over 2 by its bytes")],
            [concat!($call, ": 10 for format 2 below 1 by its sequence"), concat!($call, ": 10 for format 2 below 1 by its bytes")],
            [concat!($call, ": 10 for format 1 below 2 by its sequence"), concat!($call, ": 10 for format 1 below 2 by its bytes")],
        ]
    };
}

const RANKS: [[[&str; 2]; 4]; 2] = [ranks!("put"), ranks!("receive")];

pub fn all() -> impl Iterator<Item = &'static str> {
    let rules = WHOLE.into_iter().flatten().chain(LISTS.into_iter().flatten().flatten()).chain(WRITTEN_LISTS.into_iter().flatten());
    rules.chain(KINDS.into_iter().flatten()).chain(MET).chain(RANKS.into_iter().flatten().flatten())
}

/// What a call met; `before` is as much of the records as it was lent.
pub fn met(before: &[u8], twin: &Twin, call: &Call, answer: &Answer) -> Vec<&'static str> {
    let code = answer.code;
    let cases = match &call.step {
        Step::RecipeRead { value } => [refused(READ, value), kinds(READ, value), edges(value), lists_beside(value)].concat(),
        Step::RecipeSetpoints { value, core, turns, trims } => {
            let lent = setpoints(value, *core, call.yes, turns.len(), trims.len());
            [refused(SETPOINTS, value), kinds(SETPOINTS, value), lent].concat()
        }
        Step::RecipeWrite { fields } => write(fields, call.lent.reply.min(twin.world.reply.len())),
        Step::Put { key, value } if code == 64 || code == 9 || code == 10 => offered(before, [PUT, 0], key, value, code),
        Step::Find { key } if code == 64 => {
            let value = held(before, key);
            [kinds(FIND, &value), vec![(core_leaps(&value), "find: a held leaper whose core leaps")]].concat()
        }
        Step::Receive { piece, .. } if code == 65 || code == 9 || code == 10 => receive(before, twin, piece, answer),
        _ => vec![],
    };
    cases.into_iter().filter(|(is, _)| *is).map(|(_, what)| what).collect()
}

fn held(records: &[u8], key: &[u8]) -> Vec<u8> {
    records::find(records, key).ok().flatten().map_or(vec![], |found| found.value)
}

/// Whether a value would be a recipe if its core didn't leap.
fn core_leaps(value: &[u8]) -> bool {
    is_leaper(value) && recipe::read(value).is_err_and(|broken| broken.part == Part::Core)
}

fn has(list: &[Setpoint], by: i64) -> bool {
    differences(list).iter().any(|d| d.abs() == by)
}

/// A value that is read, at the limits.
fn edges(value: &[u8]) -> Vec<Case> {
    let (length, format, told) = (value.len() as u64, format_of(value), recipe::read(value).err());
    let (first, second) = (number(value, 16, 4).unwrap_or(0), number(value, 24, 4).unwrap_or(0));
    let is = |part, rule| told.is_some_and(|broken| broken.part == part && broken.rule == rule);
    let (bad_first, bad_second, unknown) = (is(Part::Wrap, Rule::BadDistance), is(Part::Core, Rule::BadDistance), is(Part::Whole, Rule::UnknownFormat));
    let (good, two) = (told.is_none(), format == Some(2));
    vec![
        (bad_first && format == Some(1) && first == 15, "recipe_read: 9 for a first distance of 15 in format 1"),
        (bad_first && two && first == 23, "recipe_read: 9 for a first distance of 23 in format 2"),
        (bad_first && two && first == 16, "recipe_read: 9 for a first distance of 16 in format 2"),
        (bad_first && first == length + 1, "recipe_read: 9 for a first distance one over the length"),
        (bad_second && second + 1 == first, "recipe_read: 9 for a second distance one under the first"),
        (bad_second && second == length + 1, "recipe_read: 9 for a second distance one over the length"),
        (bad_second && second >= (1 << 32) - 24, "recipe_read: 9 for a second distance near 2^32"),
        (unknown && format == Some(0), "recipe_read: 9 for format 0"),
        (unknown && format == Some(3), "recipe_read: 9 for format 3"),
        (unknown && format == Some(257), "recipe_read: 9 for format 257"),
        (unknown && format == Some(258), "recipe_read: 9 for format 258"),
        (is(Part::Whole, Rule::TooShort) && two && length == 23, "recipe_read: 9 for 23 bytes in format 2"),
        (good && two && length == 24, "recipe_read: 24 bytes in format 2"),
        (good && !two && length < 24, "recipe_read: 16 to 23 bytes in format 1"),
        (is(Part::Whole, Rule::TooLong) && two && length == 3_073, "recipe_read: 9 for 3,073 bytes in format 2"),
        (is(Part::Core, Rule::TooManySetpoints) && number(value, 20, 2) == Some(401), "recipe_read: 9 for 401 in the core"),
        (is(Part::Wrap, Rule::TooManySetpoints) && two && number(value, 12, 2) == Some(401), "recipe_read: 9 for 401 in the wrap of format 2"),
        (told.is_some_and(|b| b.part == Part::Core && b.setpoint > 0), "recipe_read: 9 for a later setpoint of the core"),
        (told.is_some_and(|b| b.part == Part::Wrap && b.setpoint > 0), "recipe_read: 9 for a later setpoint of the wrap"),
        (
            told.is_some_and(|b| b.part == Part::Wrap) && two && (second < first || second > length),
            "recipe_read: the wrap is told where the core is broken too",
        ),
    ]
}

/// Two lists of a value, at their limits and beside each other; leaps don't keep it from being looked at.
fn lists_beside(value: &[u8]) -> Vec<Case> {
    let Some(Recipe { format: 2, core, wrap, .. }) = recipe::read_of_any_size(value) else { return vec![] };
    let (good, leaper) = (recipe::read(value).is_ok(), is_leaper(value));
    let between = core.last().zip(wrap.first());
    vec![
        (good && core.len() == 400, "recipe_read: 400 setpoints in the core"),
        (good && wrap.len() == 400, "recipe_read: 400 setpoints in the wrap of format 2"),
        (good && has(&core, 5_000), "recipe_read: trims exactly 5,000 apart in the core"),
        (good && has(&wrap, 5_000), "recipe_read: trims exactly 5,000 apart in the wrap of format 2"),
        (leaper && has(&core, 5_001), "recipe_read: 9 for trims 5,001 apart in the core"),
        (leaper && has(&wrap, 5_001), "recipe_read: 9 for trims 5,001 apart in the wrap of format 2"),
        (good && between.is_some_and(|(last, first)| (last.trim - first.trim).abs() > 5_000), "recipe_read: trims leap from core to wrap"),
        (good && between.is_some_and(|(last, first)| last.turn >= first.turn), "recipe_read: turns don't rise from core to wrap"),
    ]
}

/// Setpoints that are asked for, with so much room for turns and trims.
fn setpoints(value: &[u8], core: bool, yes: u32, turns: usize, trims: usize) -> Vec<Case> {
    let Ok(recipe) = recipe::read(value) else { return vec![(turns > 0 && trims > 0, "recipe_setpoints: 9 where some were lent")] };
    let count = if core { recipe.core.len() } else { recipe.wrap.len() };
    vec![
        (core && recipe.format == 1, "recipe_setpoints: the core of format 1"),
        (core && count > 0 && yes != 1, "recipe_setpoints: the core by a number other than 1"),
        (turns < count, "recipe_setpoints: fewer turns than there are"),
        (trims < count, "recipe_setpoints: fewer trims than there are"),
        (turns > count, "recipe_setpoints: more turns than there are"),
        (trims > count, "recipe_setpoints: more trims than there are"),
        (turns != trims, "recipe_setpoints: other numbers of turns and of trims"),
    ]
}

/// Fields that are to be written, with so much room.
fn write(fields: &Fields, room: usize) -> Vec<Case> {
    match recipe::write_fields(fields) {
        Ok(value) => [kinds(WRITE, &value), written(value.len(), room)].concat(),
        Err(broken) => [unwritable(fields, broken), wrong_list(fields, broken), vec![(room > 0, "recipe_write: 9 with a room")]].concat(),
    }
}

fn written(length: usize, room: usize) -> Vec<Case> {
    vec![
        (room == 0, "recipe_write: a room of no bytes"),
        (room + 1 == length, "recipe_write: a room one byte short"),
        (room == length, "recipe_write: a room of just so many bytes"),
        (room > length, "recipe_write: a room of more bytes"),
    ]
}

/// Fields that break a rule of the whole value, or have a core in format 1.
fn unwritable(fields: &Fields, Broken { rule, .. }: Broken) -> Vec<Case> {
    let Fields { format, core, .. } = fields;
    let (unknown, cored, long) = (rule == Rule::UnknownFormat, rule == Rule::CoreInFormatOne, rule == Rule::TooLong);
    let one_over = |format: u64| long && fields.format == format && recipe::write_fields(&less(fields, 1)).is_ok();
    vec![
        (unknown, "recipe_write: 9 for an unknown format"),
        (unknown && (65_537..=65_538).contains(format), "recipe_write: 9 for a format of 65,537 or 65,538"),
        (unknown && ((1 << 32) + 1..=(1 << 32) + 2).contains(format), "recipe_write: 9 for a format of 2^32 + 1 or 2^32 + 2"),
        (cored && core.trims.is_empty(), "recipe_write: 9 for turns of a core in format 1"),
        (cored && core.turns.is_empty(), "recipe_write: 9 for trims of a core in format 1"),
        (cored && !core.turns.is_empty() && !core.trims.is_empty(), "recipe_write: 9 for both of a core in format 1"),
        (one_over(1), "recipe_write: 9 for 3,073 bytes in format 1"),
        (one_over(2), "recipe_write: 9 for 3,073 bytes in format 2"),
        (long && recipe::write_fields(&less(fields, usize::MAX)).is_err(), "recipe_write: 9 for lists too long without a note"),
    ]
}

/// The fields with so many bytes less in the note.
fn less(fields: &Fields, bytes: usize) -> Fields {
    let mut fields = fields.clone();
    fields.note.truncate(fields.note.len().saturating_sub(bytes));
    fields
}

/// Fields that break a rule of a list.
fn wrong_list(fields: &Fields, Broken { rule, part, setpoint }: Broken) -> Vec<Case> {
    let list = match part {
        Part::Wrap => &fields.wrap,
        Part::Core if rule != Rule::CoreInFormatOne => &fields.core,
        _ => return vec![],
    };
    let names = &WRITTEN_LISTS[list_of(part, fields.format)];
    let name = match WRITE_RULES.iter().position(|r| *r == rule) {
        Some(i) => names[2 + i],
        None if list.turns.len() > list.trims.len() => names[0],
        None => names[1],
    };
    let alone = |list: &List| recipe::write_fields(&Fields { format: 2, core: list.clone(), ..Fields::default() });
    let of_turn = rule == Rule::TurnTooHigh || rule == Rule::TurnNotRising;
    let later = setpoint > 0;
    vec![
        (true, name),
        (later && part == Part::Core, "recipe_write: 9 for a later setpoint of the core"),
        (later && part == Part::Wrap, "recipe_write: 9 for a later setpoint of the wrap"),
        (part == Part::Wrap && alone(&fields.core).is_err(), "recipe_write: the wrap is told where the core is broken too"),
        (of_turn && wrong_trim(&list.trims, setpoint), "recipe_write: 9 for a turn, where its trim is wrong too"),
        (list.trims.contains(&i32::MIN) && list.trims.contains(&i32::MAX), "recipe_write: 9 for trims at both ends of their type"),
    ]
}

/// Whether a trim is out of range, or leaps.
fn wrong_trim(trims: &[i32], i: usize) -> bool {
    let trim = i64::from(trims[i]);
    trim.abs() > 20_000 || i > 0 && (trim - i64::from(trims[i - 1])).abs() > 5_000
}

/// A value that is put by the host or sent by a peer; `names` are those of KINDS and of RANKS.
fn offered(records: &[u8], names: [usize; 2], key: &[u8], value: &[u8], code: u32) -> Vec<Case> {
    let (held, own) = (held(records, key), names[0] == PUT);
    let mut cases = match code {
        9 => refused(names[0], value),
        10 => vec![],
        _ => kinds(names[0], value),
    };
    let bytes_of = |put, receive| if own { put } else { receive };
    let same = held == value;
    cases.push((
        code != 9 && same && format_of(value) == Some(2),
        bytes_of("put: the bytes of a held recipe of format 2", "receive: the bytes of a held recipe of format 2"),
    ));
    cases.push((
        code == 9 && same && core_leaps(value),
        bytes_of("put: 9 for the bytes of a held leaper whose core leaps", "receive: 9 for the bytes of a held leaper whose core leaps"),
    ));
    if let (Ok(old), Ok(new)) = (recipe::read(&held), recipe::read(value)) {
        let by_bytes = usize::from(sequence_of(&held) == sequence_of(value));
        let rank = 2 * usize::from(outranks(&held, value)) + usize::from(new.format == 1);
        cases.push((old.format != new.format, RANKS[names[1]][rank][by_bytes]));
    }
    cases
}

/// What a request that a piece had whole came to.
fn receive(records: &[u8], twin: &Twin, piece: &[u8], answer: &Answer) -> Vec<Case> {
    let reply = |kind: u64| {
        let (_, reply) = said(&twin.world.reply[..answer.numbers[1] as usize]);
        reply.record.filter(|_| reply.kind == kind).map_or(vec![], |record| record.value)
    };
    match message::decode(whole_body(piece, &answer.numbers)) {
        Ok(Message { kind: message::PUT_VALUE, record: Some(record), .. }) => {
            let echo = if answer.code == 65 { format_of(&reply(message::PUT_VALUE)) } else { None };
            let echoes = vec![(echo == Some(1), "receive: the echo of a recipe of format 1"), (echo == Some(2), "receive: the echo of a recipe of format 2")];
            [offered(records, [RECEIVE, 1], &record.key, &record.value, answer.code), echoes].concat()
        }
        Ok(Message { kind: message::GET_VALUE, .. }) if answer.code == 65 => {
            let value = reply(message::GET_VALUE);
            [kinds(SERVED, &value), vec![(core_leaps(&value), "receive: GET_VALUE is served a held leaper whose core leaps")]].concat()
        }
        _ => vec![],
    }
}
