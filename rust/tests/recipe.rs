//! Recipes of both formats: there and back, which rule a refused one breaks and where, and that all of it agrees with the proved put, and with the rules as they are
//! written down in plain Rust below.

use starterbell::recipe::{self, check, outranks, sequence, Broken, Format, Part, Recipe, Rule, Setpoint};
use starterbell::{raw, Refusal};
use std::collections::BTreeMap;

/// Turns and trims.
type Setpoints<'a> = &'a [(u32, i32)];

fn setpoints(list: Setpoints) -> Vec<Setpoint> {
    list.iter().map(|&(turn, trim)| Setpoint { turn, trim }).collect()
}

fn one_spool(wrap: Setpoints) -> Recipe {
    Recipe { note: b"D string, silver".to_vec(), wrap: setpoints(wrap), sequence: 3, ..Recipe::default() }
}

fn two_spools(core: Setpoints, wrap: Setpoints) -> Recipe {
    Recipe { format: Format::Two, core: setpoints(core), ..one_spool(wrap) }
}

/// A list in each place that a list can have, with its part. What stands beside it keeps the rules, and would break them if the two were one list.
fn placed(list: Setpoints) -> [(Part, Recipe); 3] {
    let other = [(999_999, -20_000), (1_000_000, -20_000)];
    [(Part::Wrap, one_spool(list)), (Part::Wrap, two_spools(&other, list)), (Part::Core, two_spools(list, &other))]
}

/// What the exported put gives for a value, in an empty store.
fn put(value: &[u8]) -> u32 {
    raw::put(&mut [0; raw::RECORD], b"/wind/g", value)
}

/// Why a value is refused. The proved put has to give 9 for it exactly if it is, and each refusal is the one that the plain rules give.
fn why(value: &[u8]) -> Option<Broken> {
    let read = Recipe::from_value(value);
    assert_eq!(read, plain::read(value), "{value:?}");
    assert_eq!(put(value), if read.is_err() { 9 } else { 64 }, "{read:?}: {value:?}");
    assert_eq!(check(value).err(), read.as_ref().err().copied());
    read.err()
}

/// Why a recipe is refused, which has to be what the plain rules say; else its value, which has to be laid out as they say, and to be taken.
fn written(recipe: &Recipe) -> Result<Vec<u8>, Broken> {
    let value = recipe.to_value();
    assert_eq!(value, plain::write(recipe), "{recipe:?}");
    if let Ok(value) = &value {
        assert_eq!(why(value), None);
        assert_eq!(Recipe::from_value(value).as_ref(), Ok(recipe));
    }
    value
}

fn at(part: Part, rule: Rule, setpoint: usize) -> Option<Broken> {
    Some(Broken { rule, part, setpoint: Some(setpoint) })
}

fn of(part: Part, rule: Rule) -> Option<Broken> {
    Some(Broken { rule, part, setpoint: None })
}

fn whole(rule: Rule) -> Option<Broken> {
    of(Part::Whole, rule)
}

#[test]
fn there_and_back() {
    let most = (0..400).map(|n| (n * 2_506, n as i32 * 100 - 20_000)).collect::<Vec<_>>();
    let lists: [Setpoints; 5] = [&[], &[(0, -1)], &[(127, 0), (128, 1), (16_384, -64)], &[(0, 20_000), (1_000_000, 15_000)], &most];
    for list in lists {
        for (_, recipe) in placed(list) {
            written(&recipe).expect("within the limits");
        }
    }
    for sequence in [0, 1, u64::MAX] {
        written(&Recipe { sequence, ..two_spools(&[(0, 1)], &[]) }).expect("any sequence");
    }
}

// ---- worked bytes

#[test]
fn the_rule_books_examples() {
    let example = [0, 1, 0x12, 0, 0, 0, 1, 0, 1, 0, 7, 0, 0, 0, 0, 0, 0, 0];
    let read = Recipe::from_value(&example).expect("taken");
    assert_eq!(read, Recipe { wrap: setpoints(&[(0, -1)]), sequence: 7, ..Recipe::default() });
    let mut broken = example;
    broken[2] = 0x13;
    assert_eq!(why(&broken), of(Part::Wrap, Rule::BadDistance));
    assert_eq!(why(&[16, 0, 0, 0, 0, 0, 1, 0, 0, 0, 0, 0, 0, 0, 0, 0]), None);
}

/// Core (0, 0), wrap (0, -1), sequence 7, no note.
const WORKED: [u8; 28] = [0, 0, 0, 1, 0x1c, 0, 0, 0, 1, 0, 0, 0, 0x1a, 0, 0, 0, 1, 0, 2, 0, 7, 0, 0, 0, 0, 0, 0, 0];

/// The worked bytes with some of them changed.
fn worked(changed: &[(usize, u8)]) -> Vec<u8> {
    let mut value = WORKED.to_vec();
    changed.iter().for_each(|(at, byte)| value[*at] = *byte);
    value
}

#[test]
fn worked_bytes_of_format_2() {
    let recipe = Recipe { format: Format::Two, core: setpoints(&[(0, 0)]), wrap: setpoints(&[(0, -1)]), sequence: 7, ..Recipe::default() };
    assert_eq!(recipe.to_value().as_deref(), Ok(&WORKED[..]));
    assert_eq!(Recipe::from_value(&WORKED).as_ref(), Ok(&recipe));
    let without = Recipe { note: vec![0, 0], core: vec![], ..recipe };
    assert_eq!(Recipe::from_value(&worked(&[(4, 0x1a), (8, 0)])), Ok(without), "equal distances are an empty core, and its bytes are the note's");
    assert_eq!((why(&worked(&[(10, 1)])), why(&worked(&[(11, 1)]))), (whole(Rule::PadNotZero), whole(Rule::PadNotZero)));
    assert_eq!(why(&worked(&[(12, 0x17)])), of(Part::Wrap, Rule::BadDistance), "under 24");
    assert_eq!(why(&worked(&[(4, 0x1d)])), of(Part::Core, Rule::BadDistance), "over the length");
    assert_eq!(why(&worked(&[(4, 0x19)])), of(Part::Core, Rule::BadDistance), "under the wrap's");
    assert_eq!(why(&worked(&[(4, 0x19), (8, 0)])), of(Part::Core, Rule::BadDistance), "under the wrap's, of no setpoints");
    assert_eq!((why(&worked(&[(18, 3)])), why(&worked(&[(19, 2)]))), (whole(Rule::UnknownFormat), whole(Rule::UnknownFormat)));
}

#[test]
fn least_values_have_16_or_24_bytes() {
    let two = [0x18, 0, 0, 0, 0, 0, 0, 0, 0x18, 0, 0, 0, 0, 0, 2, 0, 5, 0, 0, 0, 0, 0, 0, 0];
    assert_eq!(Recipe { format: Format::Two, sequence: 5, ..Recipe::default() }.to_value().as_deref(), Ok(&two[..]));
    assert_eq!(why(&two), None);
    for length in 16..24 {
        assert_eq!(why(&two[24 - length..]), whole(Rule::TooShort), "format 2 in {length} bytes");
    }
    // format 1 as before, with 16 to 23 bytes and distances of 16 to 23
    for note in 0..8 {
        let one = Recipe { note: vec![2; note], ..Recipe::default() };
        assert_eq!(written(&one).expect("a recipe").len(), 16 + note);
        let list = (0..note as u32 / 2).map(|turn| (turn, 0)).collect::<Vec<_>>();
        assert_eq!(written(&Recipe { note: vec![], ..one_spool(&list) }).expect("a recipe").len(), 16 + note / 2 * 2);
    }
}

// ---- every rule, at its limit and one past it

#[test]
fn rules_on_setpoints_are_named_with_the_setpoint() {
    use Rule::{TrimLeaps, TrimOutOfRange, TurnNotRising, TurnTooHigh};
    let lists: [(Setpoints, Option<(Rule, usize)>); 14] = [
        (&[(1_000_000, 0)], None),
        (&[(1_000_001, 0)], Some((TurnTooHigh, 0))),
        (&[(0, 0), (u32::MAX, 0)], Some((TurnTooHigh, 1))),
        (&[(5, 0), (6, 0)], None),
        (&[(4, 0), (5, 0), (5, 0)], Some((TurnNotRising, 2))),
        (&[(5, 0), (4, 0)], Some((TurnNotRising, 1))),
        (&[(0, 20_000)], None),
        (&[(0, -20_000)], None),
        (&[(0, 20_001)], Some((TrimOutOfRange, 0))),
        (&[(0, 0), (1, 0), (2, -20_001)], Some((TrimOutOfRange, 2))),
        (&[(u32::MAX, i32::MIN)], Some((TurnTooHigh, 0))),
        (&[(0, i32::MIN), (1, i32::MAX)], Some((TrimOutOfRange, 0))),
        (&[(0, 5_000), (1, 0), (1_000_000, -5_000)], None),
        (&[(0, 5_000), (1, 0), (1_000_000, -5_001)], Some((TrimLeaps, 2))),
    ];
    for (list, broken) in lists {
        for (part, recipe) in placed(list) {
            assert_eq!(written(&recipe).err(), broken.and_then(|(rule, setpoint)| at(part, rule, setpoint)), "{recipe:?}");
        }
    }
}

#[test]
fn leaps_are_refused_and_named() {
    let lists: [(&[i32], Option<usize>); 9] = [
        (&[20_000], None),
        (&[-2_500, 2_500, -2_500], None),
        (&[0, 5_000, 10_000, 15_000, 20_000], None),
        (&[0, 5_001], Some(1)),
        (&[0, -5_001], Some(1)),
        (&[2_501, -2_500], Some(1)),
        (&[-20_000, 20_000], Some(1)),
        (&[0, 5_000, -1], Some(2)),
        (&[0, 5_000, 5_000, 10_001, 20_000], Some(3)),
    ];
    for (trims, leap) in lists {
        for (part, recipe) in placed(&(0..).zip(trims.iter().copied()).collect::<Vec<_>>()) {
            assert_eq!(written(&recipe).err(), leap.and_then(|leap| at(part, Rule::TrimLeaps, leap)), "{recipe:?}");
        }
    }
}

/// "-20,000 last in the core and 20,000 first in the wrap is fine", and so are turns that start anew.
#[test]
fn lists_stand_for_themselves() {
    assert_eq!(written(&two_spools(&[(7, -20_000)], &[(7, 20_000)])).err(), None);
    assert_eq!(written(&two_spools(&[(1_000_000, 0)], &[(0, 0)])).err(), None);
}

#[test]
fn rules_on_the_whole_are_named() {
    for count in [400, 401, 70_000] {
        for (part, recipe) in placed(&(0..count).map(|n| (n, 0)).collect::<Vec<_>>()) {
            let broken = if count > 400 { of(part, Rule::TooManySetpoints) } else { None };
            assert_eq!(recipe.to_value().err(), broken, "{count}");
        }
    }
    let note = |format, bytes: usize| written(&Recipe { format, note: vec![0; bytes], ..Recipe::default() }).err();
    assert_eq!((note(Format::One, 3_056), note(Format::One, 3_057)), (None, whole(Rule::TooLong)));
    assert_eq!((note(Format::Two, 3_048), note(Format::Two, 3_049)), (None, whole(Rule::TooLong)));
    let long = |count: u32| (0..count).map(|n| (900_000 + n, -20_000)).collect::<Vec<_>>();
    let noted = |recipe: Recipe, bytes: usize| written(&Recipe { note: vec![0; bytes], ..recipe }).err();
    assert_eq!(noted(one_spool(&long(400)), 656), None, "the setpoints have 2,400 bytes");
    assert_eq!(noted(one_spool(&long(400)), 657), whole(Rule::TooLong));
    assert_eq!(noted(two_spools(&long(400), &long(108)), 0), None, "these have 3,048");
    assert_eq!(noted(two_spools(&long(400), &long(108)), 1), whole(Rule::TooLong));
    assert_eq!(noted(two_spools(&long(400), &long(400)), 0), whole(Rule::TooLong));
    assert_eq!(written(&Recipe { format: Format::One, ..two_spools(&[(0, 0)], &[]) }).err(), of(Part::Core, Rule::CoreInFormatOne));
}

/// What version 0.1 refused is taken: over 2,048 bytes, over 200 setpoints, or both.
#[test]
fn what_was_past_the_limits_of_version_0_1_is_taken() {
    for (count, bytes) in [(0, 2_049), (200, 2_049), (201, 2_048), (201, 2_049), (400, 2_416), (400, 3_072)] {
        let mut recipe = one_spool(&(0..count).map(|n| (900_000 + n, -20_000)).collect::<Vec<_>>());
        recipe.note = vec![b'c'; bytes - 16 - 6 * count as usize];
        let value = written(&recipe).expect("within the limits");
        assert_eq!(value.len(), bytes);
        let mut store = [0; raw::RECORD];
        let mut found = [0; 2];
        assert_eq!((raw::put(&mut store, b"/wind/c", &value), raw::find(&store, b"/wind/c", &mut found)), (64, 64));
        assert_eq!(store[found[0] as usize..found[1] as usize], value, "all of it");
    }
}

/// A rule's words say its limit.
#[test]
fn words_have_the_limits() {
    let limits = [
        (Rule::TooLong, recipe::VALUE_MAX),
        (Rule::TooManySetpoints, recipe::SETPOINTS_MAX),
        (Rule::TurnTooHigh, recipe::TURN_MAX as usize),
        (Rule::TrimOutOfRange, recipe::TRIM_MAX as usize),
        (Rule::TrimLeaps, recipe::LEAP_MAX as usize),
    ];
    for (rule, limit) in limits {
        let digits = rule.words().replace(',', "");
        assert!(digits.split(|c: char| !c.is_ascii_digit()).any(|number| number == limit.to_string()), "{limit}: {}", rule.words());
    }
}

// ---- rules that bytes alone can break

/// Bytes as a list's setpoints in each place, with so many said to be there.
fn bytes_placed(room: &[u8], count: u16) -> [(Part, Vec<u8>); 3] {
    let (note, back) = (b"note".as_slice(), |lists: usize, trailer: usize| ((lists + trailer) as u32).to_le_bytes());
    let (count, one, two, sequence) = (count.to_le_bytes(), [1, 0], [2, 0], 7u64.to_le_bytes());
    let other = [0xc0, 0x84, 0x3d, 0xbf, 0xb8, 2];
    let both = room.len() + other.len();
    [
        (Part::Wrap, [note, room, &back(room.len(), 16), &count, &one, &sequence].concat()),
        (Part::Wrap, [note, &other, room, &back(both, 24), &one, &[0, 0], &back(room.len(), 24), &count, &two, &sequence].concat()),
        (Part::Core, [note, room, &other, &back(both, 24), &count, &[0, 0], &back(other.len(), 24), &one, &two, &sequence].concat()),
    ]
}

#[test]
fn rules_on_reading_are_named() {
    for (format, good) in [(1, one_spool(&[(0, 0), (1, 0)])), (2, two_spools(&[], &[(0, 0), (1, 0)]))] {
        let good = good.to_value().expect("a recipe");
        let (length, trailer) = (good.len(), 8 + 8 * format);
        assert_eq!((why(&good), why(&[]), why(&good[length - 15..])), (None, whole(Rule::TooShort), whole(Rule::TooShort)));
        let changed = |changes: &[(usize, u8)]| {
            let mut value = good.clone();
            changes.iter().for_each(|(from_end, byte)| value[length - from_end] = *byte);
            why(&value)
        };
        let (far, wrap) = (length as u8, |rule| of(Part::Wrap, rule));
        assert_eq!([changed(&[(10, 0)]), changed(&[(10, 3)]), changed(&[(9, 1)])], [whole(Rule::UnknownFormat); 3]);
        assert_eq!([changed(&[(16, trailer - 1)]), changed(&[(16, far + 1)]), changed(&[(13, 1)])], [wrap(Rule::BadDistance); 3]);
        assert_eq!((changed(&[(16, trailer)]), changed(&[(12, 1)])), (at(Part::Wrap, Rule::NoSetpoint, 0), wrap(Rule::BytesLeft)));
        assert_eq!((changed(&[(12, 3)]), changed(&[(12, 0)])), (at(Part::Wrap, Rule::NoSetpoint, 2), wrap(Rule::BytesLeft)));
        assert_eq!((changed(&[(11, 1)]), changed(&[(11, 2)])), (at(Part::Wrap, Rule::NoSetpoint, 2), wrap(Rule::TooManySetpoints)));
    }
    for count in [400, 401, 656] {
        for (part, value) in bytes_placed(&[0, 0, 1, 0], count) {
            assert_eq!(why(&value), if count > 400 { of(part, Rule::TooManySetpoints) } else { at(part, Rule::NoSetpoint, 2) });
        }
    }
}

/// In the order of the rules: the value as a whole, the wrap, the core.
#[test]
fn the_first_broken_rule_is_named() {
    let core = (0, 0xff); // its first turn goes past it
    assert_eq!(why(&worked(&[core])), at(Part::Core, Rule::NoSetpoint, 0));
    assert_eq!(why(&worked(&[core, (9, 2)])), of(Part::Core, Rule::TooManySetpoints));
    assert_eq!(why(&worked(&[core, (9, 2), (4, 0x1d)])), of(Part::Core, Rule::BadDistance));
    assert_eq!(why(&worked(&[core, (9, 2), (4, 0x1d), (16, 0)])), of(Part::Wrap, Rule::BytesLeft));
    assert_eq!(why(&worked(&[core, (9, 2), (4, 0x1d), (16, 2)])), at(Part::Wrap, Rule::NoSetpoint, 1));
    assert_eq!(why(&worked(&[core, (9, 2), (4, 0x1d), (17, 2)])), of(Part::Wrap, Rule::TooManySetpoints));
    assert_eq!(why(&worked(&[core, (9, 2), (4, 0x1d), (17, 2), (12, 0x17)])), of(Part::Wrap, Rule::BadDistance));
    assert_eq!(why(&worked(&[core, (9, 2), (4, 0x1d), (17, 2), (12, 0x17), (11, 1)])), whole(Rule::PadNotZero));
    assert_eq!(why(&worked(&[core, (9, 2), (4, 0x1d), (17, 2), (12, 0x17), (11, 1), (18, 3)])), whole(Rule::UnknownFormat));
    let long = [vec![0; 3_045], worked(&[(18, 3)])].concat();
    assert_eq!(why(&long), whole(Rule::TooLong));
}

/// The bytes of a list, how many setpoints they are said to be, and the rule that is broken with its setpoint.
type Room = (&'static [u8], u16, Option<(Rule, usize)>);

#[test]
fn varints_are_judged_where_they_stand() {
    use Rule::{BytesLeft, NoSetpoint, TrimLeaps, TrimOutOfRange, TurnNotRising, TurnTooHigh};
    let rooms: [Room; 18] = [
        (&[0x80, 1, 0], 1, None),
        (&[0x80, 0, 0], 1, Some((NoSetpoint, 0))),
        (&[0, 0x80, 0x80, 0], 1, Some((NoSetpoint, 0))),
        (&[0, 0, 1, 0x80, 0x80, 0x80, 0x80, 0x80, 0x80, 0], 2, Some((NoSetpoint, 1))),
        (&[0, 0, 1], 2, Some((NoSetpoint, 1))),
        (&[0, 0, 1, 0x80], 2, Some((NoSetpoint, 1))),
        // three bytes are judged by their number, four or more aren't looked at
        (&[0xff, 0xff, 0x7f, 0], 1, Some((TurnTooHigh, 0))),
        (&[0xff, 0xff, 0x7f, 0x80, 0], 1, Some((NoSetpoint, 0))),
        (&[0x80, 0x80, 0x80, 1, 0], 1, Some((NoSetpoint, 0))),
        (&[0xff, 0xff, 0xff, 0xff, 0xff, 0xff, 0xff, 0xff, 0xff, 0xff, 1, 0], 1, Some((NoSetpoint, 0))),
        (&[0, 0xff, 0xff, 0x7f], 1, Some((TrimOutOfRange, 0))),
        (&[0, 0x80, 0x80, 0x80, 1], 1, Some((NoSetpoint, 0))),
        (&[0, 0xc1, 0xb8, 2], 1, Some((TrimOutOfRange, 0))),
        (&[0, 0xc0, 0xb8, 2, 0, 0], 2, Some((TurnNotRising, 1))),
        (&[0, 0xc0, 0xb8, 2, 1, 0], 2, Some((TrimLeaps, 1))),
        // the turn of a setpoint is judged once its trim is there
        (&[0xff, 0xff, 0x7f], 1, Some((NoSetpoint, 0))),
        // and no byte of the list after it, or of the trailer, is taken for it
        (&[], 1, Some((NoSetpoint, 0))),
        (&[0, 0, 1, 0], 1, Some((BytesLeft, 0))),
    ];
    for (room, count, broken) in rooms {
        for (part, value) in bytes_placed(room, count) {
            let broken = broken.and_then(|(rule, setpoint)| if rule == BytesLeft { of(part, rule) } else { at(part, rule, setpoint) });
            assert_eq!(why(&value), broken, "{room:x?} in {part:?}");
        }
    }
}

#[test]
fn says_what_is_wrong_in_plain_words() {
    let said = |recipe: Recipe| recipe.to_value().expect_err("broken").to_string();
    assert_eq!(said(one_spool(&[(0, 0), (1, 5_001)])), "wrap[1]: its trim differs from the one before it by more than 5,000 millinewtons");
    assert_eq!(said(two_spools(&[(1_000_001, 0)], &[])), "core[0]: its turn is over 1,000,000");
    assert_eq!(said(two_spools(&(0..401).map(|turn| (turn, 0)).collect::<Vec<_>>(), &[])), "core: there are more than 400 setpoints");
    assert_eq!(said(Recipe { format: Format::One, ..two_spools(&[(0, 0)], &[]) }), "core: format 1 has no core");
    let read = |value: &[u8]| Recipe::from_value(value).expect_err("broken").to_string();
    assert_eq!(read(&[]), "the value has fewer bytes than its trailer, which has 16, or 24 in format 2");
    assert_eq!(read(&worked(&[(4, 0x1d)])), "core: by its distance it begins before the value, or past its own end");
    for rule in Rule::ALL {
        assert_eq!(Refusal::from(Broken { rule: *rule, part: Part::Whole, setpoint: None }), Refusal::BrokenRecipe);
    }
}

#[test]
fn numbers_without_a_name_are_told() {
    assert_eq!(Rule::ALL.iter().map(|rule| rule.number()).collect::<Vec<_>>(), (0..=14).collect::<Vec<_>>());
    assert_eq!((Rule::from_number(13), Rule::from_number(15), Rule::from_number(u64::MAX)), (Rule::TrimLeaps, Rule::Unnamed, Rule::Unnamed));
    assert_eq!((Part::from_number(2), Part::from_number(3), Part::from_number(1 << 32)), (Some(Part::Core), None, None));
}

// ---- the exported functions, with room that is short

const KEPT: u64 = 0xa5a5_a5a5_a5a5_a5a5;

/// What a call writes to an `out` of so many numbers, with what comes after it.
fn told(fit: usize, call: impl FnOnce(&mut [u64]) -> u32) -> (u32, [u64; 9]) {
    let mut out = [KEPT; 9];
    (call(&mut out[..fit]), out)
}

/// As many of these numbers as fit.
fn fitting(numbers: &[u64], fit: usize) -> [u64; 9] {
    let mut out = [KEPT; 9];
    numbers.iter().take(fit).enumerate().for_each(|(n, number)| out[n] = *number);
    out
}

#[test]
fn as_many_numbers_as_fit_are_told() {
    let broken = worked(&[(0, 0xff)]);
    for fit in 0..=9 {
        assert_eq!(told(fit, |out| raw::recipe_read(&WORKED, out)), (64, fitting(&[2, 0, 2, 4, 1, 1, 7], fit)));
        assert_eq!(told(fit, |out| raw::recipe_read(&broken, out)), (9, fitting(&[9, 2, 0], fit)));
        let write = |trims: &[i32], out: &mut [u64]| raw::recipe_write(&mut [], 2, b"note", &[0, 1], trims, &[], &[], 7, out);
        assert_eq!(told(fit, |out| write(&[0, -1], out)), (64, fitting(&[32], fit)));
        assert_eq!(told(fit, |out| write(&[0, 5_001], out)), (9, fitting(&[13, 1, 1], fit)));
        assert_eq!(told(fit, |out| write(&[0], out)), (9, fitting(&[8, 1, 0], fit)));
    }
}

#[test]
fn a_short_buffer_gets_the_start_and_the_whole_length_is_told() {
    for room in 0..=WORKED.len() + 2 {
        let (mut value, mut out) = ([0xa5; 30], [0]);
        assert_eq!(raw::recipe_write(&mut value[..room], 2, &[], &[0], &[-1], &[0], &[0], 7, &mut out), 64);
        let written = room.min(WORKED.len());
        assert_eq!((out, &value[..written]), ([28], &WORKED[..written]));
        assert!(value[written..].iter().all(|byte| *byte == 0xa5), "bytes past it stay");
    }
    let mut value = [0xa5; 30];
    assert_eq!(raw::recipe_write(&mut value, 1, &[], &[0], &[-1], &[0], &[0], 7, &mut []), 9);
    assert_eq!(value, [0xa5; 30], "a refusal writes nothing");
}

#[test]
fn unpaired_lists_are_refused() {
    let write = |wrap: (usize, usize), core: (usize, usize)| {
        let (turns, trims, mut out) = ([0, 1, 2], [0; 3], [KEPT; 3]);
        let told = raw::recipe_write(&mut [], 2, &[], &turns[..wrap.0], &trims[..wrap.1], &turns[..core.0], &trims[..core.1], 7, &mut out);
        (told, out)
    };
    assert_eq!(write((2, 1), (0, 0)), (9, [8, 1, 0]));
    assert_eq!(write((1, 2), (3, 2)), (9, [8, 1, 0]));
    assert_eq!(write((3, 3), (0, 1)), (9, [8, 2, 0]));
    assert_eq!(write((3, 3), (1, 1)).0, 64);
    // which number is a format
    for format in [0, 3, 257, 258, 65_537, usize::MAX] {
        assert_eq!(told(3, |out| raw::recipe_write(&mut [], format, &[], &[0], &[], &[], &[], 0, out)), (9, fitting(&[3, 0, 0], 3)));
    }
}

#[test]
fn as_many_setpoints_as_fit_are_given() {
    let (core, wrap) = ([(1, 5), (2, -5), (3, 20)], [(7, -20_000), (1_000_000, -15_000)]);
    let value = two_spools(&core, &wrap).to_value().expect("a recipe");
    let given = |core: u32, turns: usize, trims: usize| {
        let (mut got_turns, mut got_trims) = ([77; 4], [77; 4]);
        assert_eq!(raw::recipe_setpoints(&value, core, &mut got_turns[..turns], &mut got_trims[..trims]), 64);
        (got_turns, got_trims)
    };
    assert_eq!(given(0, 4, 4), ([7, 1_000_000, 77, 77], [-20_000, -15_000, 77, 77]));
    assert_eq!(given(0, 1, 0), ([7, 77, 77, 77], [77; 4]));
    assert_eq!(given(1, 4, 4), ([1, 2, 3, 77], [5, -5, 20, 77]));
    assert_eq!(given(u32::MAX, 0, 2), ([77; 4], [5, -5, 77, 77]));
    let (mut turns, mut trims) = ([77; 4], [77; 4]);
    assert_eq!(raw::recipe_setpoints(&value[1..value.len() - 1], 0, &mut turns, &mut trims), 9);
    assert_eq!((turns, trims), ([77; 4], [77; 4]), "a refusal writes nothing");
    let one = one_spool(&wrap).to_value().expect("a recipe");
    assert_eq!(raw::recipe_setpoints(&one, 1, &mut turns, &mut trims), 64);
    assert_eq!((turns, trims), ([77; 4], [77; 4]), "format 1 has no core");
}

// ---- many values, against the proved put and the plain rules

/// Numbers that look random, the same in every run: splitmix64.
struct Rng(u64);

impl Rng {
    fn below(&mut self, n: usize) -> usize {
        self.0 = self.0.wrapping_add(0x9e37_79b9_7f4a_7c15);
        let z = (self.0 ^ (self.0 >> 30)).wrapping_mul(0xbf58_476d_1ce4_e5b9);
        let z = (z ^ (z >> 27)).wrapping_mul(0x94d0_49bb_1331_11eb);
        ((z ^ (z >> 31)) % n as u64) as usize
    }

    fn byte(&mut self) -> u8 {
        let any = self.below(256) as u8;
        [0, 1, 0x7f, 0x80, 0x81, 0xff, any, any][self.below(8)]
    }
}

/// Setpoints near the limits: most keep the rules, and one in twelve breaks one.
fn some_setpoints(rng: &mut Rng) -> Vec<(u32, i32)> {
    let (mut turn, mut trim) = (rng.below(3) as u32 * 127, [0, -20_000, 20_000][rng.below(3)]);
    let mut list = Vec::new();
    for _ in 0..rng.below(12) {
        list.push((turn, trim));
        turn = turn.saturating_add([1, 127, 16_384, 90_000, 250_000][rng.below(5)]);
        trim = (trim + [5_000, -5_000, 1, 0, -4_999][rng.below(5)]).clamp(-20_000, 20_000);
        match rng.below(48) {
            0 => turn = [1_000_000, 1_000_001, u32::MAX, 0][rng.below(4)],
            1 => trim += [5_001, -5_001][rng.below(2)],
            2 => trim = [20_001, -20_001, i32::MIN, i32::MAX][rng.below(4)],
            3 => turn = list[list.len() - 1].0,
            _ => {}
        }
        trim = trim.clamp(-1_000_000, 1_000_000);
    }
    list
}

fn some_recipe(rng: &mut Rng) -> Recipe {
    let note = vec![rng.byte(); [0, 1, 20, 3_024, 3_057][rng.below(5)] * usize::from(rng.below(4) == 0)];
    let recipe = Recipe { note, sequence: rng.below(9) as u64, ..one_spool(&some_setpoints(rng)) };
    match rng.below(12) {
        0..6 => recipe,
        6 => Recipe { core: setpoints(&some_setpoints(rng)), ..recipe },
        _ => Recipe { format: Format::Two, core: setpoints(&some_setpoints(rng)), ..recipe },
    }
}

/// A value that may be a recipe: setpoints as they come, of which some bytes are then changed, left out, doubled or made longer than they need be.
fn some_value(rng: &mut Rng) -> Vec<u8> {
    let mut value = plain::lay_out(&some_recipe(rng));
    // a count, of the wrap or where the core's would be, that goes past the list
    if rng.below(4) == 0 && value.len() > 24 {
        let at = value.len() - [12, 20][rng.below(2)];
        let count = u16::from_le_bytes([value[at], value[at + 1]]).saturating_add([1, 399][rng.below(2)]);
        value[at..at + 2].copy_from_slice(&count.to_le_bytes());
    }
    for _ in 0..[0, 0, 1, 1, 2][rng.below(5)] {
        let at = value.len().saturating_sub(1 + rng.below(40));
        match rng.below(5) {
            0 => value[at] ^= 1 << rng.below(8),
            1 => drop(value.remove(at)),
            2 => value.insert(at, rng.byte()),
            3 => value[at] |= 0x80,
            _ => value.truncate(at),
        }
        if value.is_empty() {
            break;
        }
    }
    value
}

/// A line for each rule and part, with how often it was met.
type Met = BTreeMap<String, usize>;

/// Fails unless each of these rules was met, on the whole, on the core and on both lists, and no other.
fn expect_met(met: &Met, whole: &[Rule], core: &[Rule], lists: &[Rule]) {
    let on = |rules: &[Rule], part: Part| rules.iter().map(|rule| (*rule, part)).collect::<Vec<_>>();
    let wanted = [on(whole, Part::Whole), on(core, Part::Core), on(lists, Part::Wrap), on(lists, Part::Core)].concat().into_iter();
    let mut wanted: Vec<String> = wanted.map(|(rule, part)| format!("{:?}", Some((rule, part)))).chain([format!("{:?}", None::<(Rule, Part)>)]).collect();
    wanted.sort();
    assert_eq!(met.keys().cloned().collect::<Vec<_>>(), wanted);
    assert!(met.values().all(|count| *count >= 20), "{met:?}");
}

fn met(broken: Option<Broken>) -> String {
    format!("{:?}", broken.map(|broken| (broken.rule, broken.part)))
}

/// Every value is refused exactly where the proved put gives 9, and as the plain rules say.
#[test]
fn refuses_what_the_proved_put_refuses() {
    use Rule::*;
    let mut rng = Rng(9);
    let mut seen = Met::new();
    for _ in 0..200_000 {
        let value = some_value(&mut rng);
        *seen.entry(met(why(&value))).or_default() += 1;
    }
    let lists = [BadDistance, TooManySetpoints, NoSetpoint, TurnTooHigh, TurnNotRising, TrimOutOfRange, TrimLeaps, BytesLeft];
    expect_met(&seen, &[TooShort, TooLong, UnknownFormat, PadNotZero], &[], &lists);
}

/// Every recipe is written as the plain rules lay it out, and read back; or refused as they say.
#[test]
fn writes_what_the_plain_rules_write() {
    use Rule::*;
    let mut rng = Rng(10);
    let mut seen = Met::new();
    for _ in 0..40_000 {
        let recipe = some_recipe(&mut rng);
        *seen.entry(met(written(&recipe).err())).or_default() += 1;
    }
    expect_met(&seen, &[TooLong], &[CoreInFormatOne], &[TurnTooHigh, TurnNotRising, TrimOutOfRange, TrimLeaps]);
}

/// The setpoint that is named is the first at which the proved put says no: it takes the list before it, and not the list with it.
#[test]
fn names_the_first_setpoint_that_is_wrong() {
    let mut rng = Rng(11);
    let mut named = 0;
    for _ in 0..20_000 {
        let list = some_setpoints(&mut rng);
        for (_, recipe) in placed(&list) {
            let Err(broken) = recipe.to_value() else { continue };
            let cut = |length: usize| match broken.part {
                Part::Core => Recipe { core: recipe.core[..length].to_vec(), ..recipe.clone() },
                _ => Recipe { wrap: recipe.wrap[..length].to_vec(), ..recipe.clone() },
            };
            let setpoint = broken.setpoint.expect("these lists are short");
            assert_eq!(cut(setpoint).to_value().as_deref().map(put), Ok(64), "{list:?}");
            assert_eq!(cut(setpoint + 1).to_value(), Err(broken), "{list:?}");
            named += 1;
        }
    }
    assert!(named > 6_000, "{named} of 60,000 recipes were refused");
}

// ---- rank

#[test]
fn rank() {
    let (low, high) = (one_spool(&[(0, 1)]), Recipe { sequence: 4, ..one_spool(&[]) });
    let (low, high) = (low.to_value().expect("a recipe"), high.to_value().expect("a recipe"));
    assert!(outranks(&high, &low) && !outranks(&low, &high) && !outranks(&low, &low));
    assert_eq!((sequence(&high), sequence(&[1, 2])), (4, 0));
    let other = one_spool(&[(0, 2)]).to_value().expect("a recipe");
    assert_eq!(outranks(&other, &low), other > low, "of one sequence the bytes decide");
}

/// Sequence, then bytes, across formats, as the proved put ranks.
#[test]
fn rank_across_formats() {
    let least = |format, sequence| Recipe { format, sequence, ..Recipe::default() }.to_value().expect("a recipe");
    let values = [least(Format::One, 5), least(Format::Two, 5), least(Format::One, 6), least(Format::Two, 6)];
    for (n, value) in values.iter().enumerate() {
        for (m, other) in values.iter().enumerate() {
            let mut store = [0; raw::RECORD];
            assert_eq!(raw::put(&mut store, b"/wind/g", other), 64);
            assert_eq!((outranks(value, other), raw::put(&mut store, b"/wind/g", value)), (n > m, if n < m { 10 } else { 64 }));
        }
    }
}

// ---- the rules in plain Rust

/// The rules of recipes (docs/RULES.md, Recipes) as plain code, in the order in which they are told.
mod plain {
    use super::{Broken, Format, Part, Recipe, Rule, Setpoint};

    /// A rule that a list breaks, and which setpoint where it is one on setpoints.
    type Wrong = (Rule, Option<usize>);

    fn whole<T>(rule: Rule) -> Result<T, Broken> {
        Err(Broken { rule, part: Part::Whole, setpoint: None })
    }

    fn within(part: Part) -> impl FnOnce(Wrong) -> Broken {
        move |(rule, setpoint)| Broken { rule, part, setpoint }
    }

    /// The rule that a setpoint breaks after another.
    fn rule(before: Option<&Setpoint>, setpoint: &Setpoint) -> Option<Rule> {
        if setpoint.turn > 1_000_000 {
            return Some(Rule::TurnTooHigh);
        }
        if before.is_some_and(|before| setpoint.turn <= before.turn) {
            return Some(Rule::TurnNotRising);
        }
        if !(-20_000..=20_000).contains(&setpoint.trim) {
            return Some(Rule::TrimOutOfRange);
        }
        before.is_some_and(|before| setpoint.trim.abs_diff(before.trim) > 5_000).then_some(Rule::TrimLeaps)
    }

    // ---- from bytes

    pub fn read(value: &[u8]) -> Result<Recipe, Broken> {
        let length = value.len();
        if length < 16 {
            return whole(Rule::TooShort);
        }
        if length > 3_072 {
            return whole(Rule::TooLong);
        }
        let number = |from_end: usize, bytes: usize| value[length - from_end..][..bytes].iter().rev().fold(0, |so_far, byte| so_far << 8 | u64::from(*byte));
        let (format, trailer) = match number(10, 2) {
            1 => (Format::One, 16),
            2 => (Format::Two, 24),
            _ => return whole(Rule::UnknownFormat),
        };
        if length < trailer {
            return whole(Rule::TooShort);
        }
        if format == Format::Two && number(18, 2) != 0 {
            return whole(Rule::PadNotZero);
        }
        let wrap_back = number(16, 4) as usize;
        let wrap = list(value, wrap_back, trailer, number(12, 2)).map_err(within(Part::Wrap))?;
        let (core_back, core_count) = if format == Format::Two { (number(24, 4) as usize, number(20, 2)) } else { (wrap_back, 0) };
        let core = list(value, core_back, wrap_back, core_count).map_err(within(Part::Core))?;
        Ok(Recipe { format, note: value[..length - core_back].to_vec(), wrap, core, sequence: number(8, 8) })
    }

    /// So many setpoints, which fill what is from one distance to another.
    fn list(value: &[u8], from: usize, to: usize, count: u64) -> Result<Vec<Setpoint>, Wrong> {
        if !(to..=value.len()).contains(&from) {
            return Err((Rule::BadDistance, None));
        }
        if count > 400 {
            return Err((Rule::TooManySetpoints, None));
        }
        let mut room = &value[value.len() - from..value.len() - to];
        let mut list: Vec<Setpoint> = Vec::new();
        for n in 0..count as usize {
            let setpoint = setpoint(&mut room).ok_or((Rule::NoSetpoint, Some(n)))?;
            if let Some(rule) = rule(list.last(), &setpoint) {
                return Err((rule, Some(n)));
            }
            list.push(setpoint);
        }
        if room.is_empty() {
            return Ok(list);
        }
        Err((Rule::BytesLeft, None))
    }

    fn setpoint(room: &mut &[u8]) -> Option<Setpoint> {
        let (turn, zigzag) = (varint(room)?, varint(room)?);
        Some(Setpoint { turn, trim: (zigzag >> 1) as i32 ^ -((zigzag & 1) as i32) })
    }

    /// A varint of one to three bytes, of which the last isn't needless.
    fn varint(room: &mut &[u8]) -> Option<u32> {
        let length = room.iter().position(|byte| *byte < 0x80)? + 1;
        let (varint, after) = room.split_at(length);
        *room = after;
        if length > 3 || (length > 1 && varint[length - 1] == 0) {
            return None;
        }
        Some(varint.iter().rev().fold(0, |so_far, byte| so_far << 7 | u32::from(byte & 0x7f)))
    }

    // ---- to bytes

    pub fn write(recipe: &Recipe) -> Result<Vec<u8>, Broken> {
        if recipe.format == Format::One && !recipe.core.is_empty() {
            return Err(within(Part::Core)((Rule::CoreInFormatOne, None)));
        }
        judge(&recipe.wrap).map_err(within(Part::Wrap))?;
        judge(&recipe.core).map_err(within(Part::Core))?;
        let value = lay_out(recipe);
        if value.len() > 3_072 {
            return whole(Rule::TooLong);
        }
        Ok(value)
    }

    fn judge(list: &[Setpoint]) -> Result<(), Wrong> {
        if list.len() > 400 {
            return Err((Rule::TooManySetpoints, None));
        }
        for (n, setpoint) in list.iter().enumerate() {
            if let Some(rule) = rule(n.checked_sub(1).map(|before| &list[before]), setpoint) {
                return Err((rule, Some(n)));
            }
        }
        Ok(())
    }

    /// A value with these fields, whatever the rules say of it.
    pub fn lay_out(recipe: &Recipe) -> Vec<u8> {
        let (core, wrap) = (bytes(&recipe.core), bytes(&recipe.wrap));
        let number = |number: usize, bytes: usize| number.to_le_bytes()[..bytes].to_vec();
        let (format, sequence) = (number(recipe.format as usize, 2), recipe.sequence.to_le_bytes().to_vec());
        let (cores, wraps) = (number(recipe.core.len(), 2), number(recipe.wrap.len(), 2));
        let note = recipe.note.clone();
        match recipe.format {
            Format::One => [note, wrap.clone(), number(wrap.len() + 16, 4), wraps, format, sequence].concat(),
            Format::Two => {
                let (back, far) = (number(wrap.len() + 24, 4), number(core.len() + wrap.len() + 24, 4));
                [note, core, wrap, far, cores, vec![0, 0], back, wraps, format, sequence].concat()
            }
        }
    }

    fn bytes(list: &[Setpoint]) -> Vec<u8> {
        let mut bytes = Vec::new();
        for setpoint in list {
            put_varint(&mut bytes, setpoint.turn);
            put_varint(&mut bytes, (setpoint.trim << 1 ^ setpoint.trim >> 31) as u32);
        }
        bytes
    }

    fn put_varint(out: &mut Vec<u8>, number: u32) {
        if number < 0x80 {
            return out.push(number as u8);
        }
        out.push(number as u8 | 0x80);
        put_varint(out, number >> 7);
    }
}
