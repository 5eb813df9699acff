//! Request xi: recipe format 2. Each rule on both of its sides, in the order in which they are told, by reading and by writing, and rank across formats.

use starterbell_model::gen::{self, Rng};
use starterbell_model::recipe::{self, outranks, read, write_fields, Broken, Fields, List, Part, Recipe, Rule, Setpoint};
use starterbell_model::{limits, records, Refusal};
use std::collections::BTreeMap;

/// Core (0, 0), wrap (0, -1), sequence 7, no note.
const WORKED: [u8; 28] = [0, 0, 0, 1, 0x1c, 0, 0, 0, 1, 0, 0, 0, 0x1a, 0, 0, 0, 1, 0, 2, 0, 7, 0, 0, 0, 0, 0, 0, 0];

fn broken(rule: Rule, part: Part, setpoint: usize) -> Broken {
    Broken { rule, part, setpoint }
}

fn whole<T>(rule: Rule) -> Result<T, Broken> {
    Err(broken(rule, Part::Whole, 0))
}

/// What is told of a value: the recipe, or rule, part and setpoint.
fn told(value: &[u8]) -> Result<Recipe, (Rule, Part, usize)> {
    read(value).map_err(|b| (b.rule, b.part, b.setpoint))
}

/// A value with some of its bytes written over.
fn with(value: &[u8], changes: &[(usize, u8)]) -> Vec<u8> {
    let mut changed = value.to_vec();
    changes.iter().for_each(|(at, byte)| changed[*at] = *byte);
    changed
}

/// Turns and trims.
type Pairs = [(u64, i64)];

fn list(setpoints: &Pairs) -> Vec<Setpoint> {
    setpoints.iter().map(|(turn, trim)| Setpoint { turn: *turn, trim: *trim }).collect()
}

fn two(core: &Pairs, wrap: &Pairs) -> Recipe {
    Recipe { format: 2, core: list(core), wrap: list(wrap), ..Recipe::default() }
}

/// P-xi-2.
#[test]
fn the_worked_bytes() {
    let said = Recipe { sequence: 7, ..two(&[(0, 0)], &[(0, -1)]) };
    assert_eq!((told(&WORKED), recipe::write(&said)), (Ok(said.clone()), WORKED.to_vec()));
    assert_eq!(recipe::numbers(&WORKED), Ok([2, 0, 2, 4, 1, 1, 7]));
    for pad in [10, 11] {
        assert_eq!(read(&with(&WORKED, &[(pad, 1)])), whole(Rule::PadNotZero));
    }
    assert_eq!(told(&with(&WORKED, &[(12, 0x17)])), Err((Rule::BadDistance, Part::Wrap, 0)));
    assert_eq!(told(&with(&WORKED, &[(4, 0x1d)])), Err((Rule::BadDistance, Part::Core, 0)));
    assert_eq!(told(&with(&WORKED, &[(4, 0x19)])), Err((Rule::BadDistance, Part::Core, 0)));
    assert_eq!(told(&with(&WORKED, &[(4, 0x19), (8, 0)])), Err((Rule::BadDistance, Part::Core, 0)), "also with a count of 0");
    assert_eq!(read(&with(&WORKED, &[(18, 3)])), whole(Rule::UnknownFormat));
    let empty_core = Recipe { note: vec![0, 0], core: vec![], ..said };
    assert_eq!(told(&with(&WORKED, &[(4, 0x1a), (8, 0)])), Ok(empty_core));
    assert_eq!(recipe::numbers(&with(&WORKED, &[(4, 0x1a), (8, 0)])), Ok([2, 2, 2, 4, 0, 1, 7]));
}

/// P-xi-3 and P-xi-4.
#[test]
fn the_least_values() {
    let least = [&[0x18, 0, 0, 0, 0, 0, 0, 0, 0x18, 0, 0, 0, 0, 0, 2, 0][..], &9u64.to_le_bytes()].concat();
    assert_eq!((least.len(), told(&least)), (24, Ok(Recipe { sequence: 9, ..two(&[], &[]) })));
    assert_eq!(recipe::numbers(&least), Ok([2, 0, 0, 0, 0, 0, 9]));
    for length in 0..24 {
        assert_eq!(read(&least[24 - length..]), whole(Rule::TooShort), "{length}");
    }
    let of_one = with(&least, &[(8, 0x10), (14, 1)]);
    for length in 16..24 {
        let note = &of_one[24 - length..8];
        assert_eq!(told(&of_one[24 - length..]), Ok(Recipe { note: note.to_vec(), sequence: 9, ..Recipe::default() }));
    }
    for (format, low, high) in [(0, 0, 0), (3, 3, 0), (257, 1, 1), (258, 2, 1), (512, 0, 2), (65_535, 255, 255)] {
        assert_eq!(read(&with(&least, &[(14, low), (15, high)])), whole(Rule::UnknownFormat), "{format}");
        assert_eq!(write_fields(&Fields { format, ..Fields::default() }), whole(Rule::UnknownFormat), "{format}");
    }
}

/// P-xi-3: 24 <= first distance <= second distance <= length.
#[test]
fn distances() {
    let of = |note: usize, first: u32, second: u32| {
        let value = [&vec![b'n'; note][..], &second.to_le_bytes(), &[0; 4], &first.to_le_bytes(), &[0, 0, 2, 0], &[0; 8]].concat();
        told(&value).map(|recipe| recipe.note.len())
    };
    let (wrap, core) = (Err((Rule::BadDistance, Part::Wrap, 0)), Err((Rule::BadDistance, Part::Core, 0)));
    assert_eq!((of(0, 24, 24), of(3, 24, 24)), (Ok(0), Ok(3)));
    for first in [0, 15, 16, 23, 28, 256 + 24, 65_536 + 24, u32::MAX - 23, u32::MAX] {
        assert_eq!(of(3, first, 24), wrap, "{first}");
    }
    for second in [0, 16, 23, 28, 256 + 24, 65_536 + 24, u32::MAX - 23, u32::MAX] {
        assert_eq!(of(3, 24, second), core, "{second}");
    }
    // within the value, and then there are bytes that no setpoint is
    assert_eq!((of(3, 25, 24), of(3, 27, 27)), (Err((Rule::BytesLeft, Part::Wrap, 0)), Err((Rule::BytesLeft, Part::Wrap, 0))));
    assert_eq!((of(3, 24, 25), of(3, 24, 27)), (Err((Rule::BytesLeft, Part::Core, 0)), Err((Rule::BytesLeft, Part::Core, 0))));
}

/// P-xi-5.
#[test]
fn each_list_for_itself() {
    let fine = [
        two(&[(0, -20_000)], &[(1, 20_000)]),
        two(&[(0, 20_000)], &[(1, -20_000)]),
        two(&[(1_000_000, 0)], &[(0, 0)]),
        two(&[(5, 0)], &[(5, 0)]),
        two(&[(0, 0), (1, 5_000)], &[(0, 5_000), (1, 0)]),
        two(&[], &[(3, 3)]),
        two(&[(3, 3)], &[]),
        two(&[], &[]),
    ];
    for fine in fine {
        assert_eq!((told(&recipe::write(&fine)), write_fields(&Fields::from(&fine))), (Ok(fine.clone()), Ok(recipe::write(&fine))));
    }
    let breaks: [(Rule, usize, &Pairs); 8] = [
        (Rule::TurnTooHigh, 1, &[(0, 0), (1_000_001, 0)]),
        (Rule::TurnNotRising, 1, &[(5, 0), (5, 0), (6, 0)]),
        (Rule::TurnNotRising, 2, &[(5, 0), (6, 0), (4, 0)]),
        (Rule::TrimOutOfRange, 0, &[(0, 20_001)]),
        (Rule::TrimOutOfRange, 1, &[(0, -20_000), (1, -20_001)]),
        (Rule::TrimLeaps, 1, &[(0, 0), (1, 5_001)]),
        (Rule::TrimLeaps, 1, &[(0, 5_001), (1, 0)]),
        (Rule::TrimLeaps, 3, &[(0, 0), (1, 5_000), (2, 0), (1_000_000, -5_001)]),
    ];
    for (rule, setpoint, bad) in breaks {
        let one = Recipe { wrap: list(bad), ..Recipe::default() };
        let parts = [(one, Part::Wrap), (two(&[], bad), Part::Wrap), (two(&[(0, 0)], bad), Part::Wrap), (two(bad, &[(9, 0)]), Part::Core)];
        for (recipe, part) in parts {
            assert_eq!(read(&recipe::write(&recipe)), Err(broken(rule, part, setpoint)));
            assert_eq!(write_fields(&Fields::from(&recipe)), Err(broken(rule, part, setpoint)));
        }
        let both = two(bad, bad);
        assert_eq!(read(&recipe::write(&both)), Err(broken(rule, Part::Wrap, setpoint)), "the wrap comes first");
        assert_eq!(write_fields(&Fields::from(&both)), Err(broken(rule, Part::Wrap, setpoint)));
    }
}

/// So many setpoints of two bytes up to the 128th and of three after it.
fn so_many(count: u64) -> Vec<Setpoint> {
    (0..count).map(|turn| Setpoint { turn, trim: 0 }).collect()
}

/// P-xi-5: "400 in each fit only if short: 3,072 binds."
#[test]
fn counts_and_lengths() {
    let of = |core: u64, wrap: u64, note: usize| Recipe { note: vec![b'n'; note], core: so_many(core), wrap: so_many(wrap), ..two(&[], &[]) };
    let room = limits::VALUE - recipe::write(&of(400, 400, 0)).len();
    for (core, wrap) in [(400, 400), (400, 0), (0, 400), (399, 400)] {
        let made = of(core, wrap, 5);
        assert_eq!((told(&recipe::write(&made)), write_fields(&Fields::from(&made))), (Ok(made.clone()), Ok(recipe::write(&made))));
    }
    assert!(read(&recipe::write(&of(400, 400, room))).is_ok());
    let long = of(400, 400, room + 1);
    assert_eq!((read(&recipe::write(&long)), write_fields(&Fields::from(&long))), (whole(Rule::TooLong), whole(Rule::TooLong)));
    for (core, wrap, part) in [(400, 401, Part::Wrap), (401, 400, Part::Core), (401, 401, Part::Wrap), (656, 3, Part::Core)] {
        let made = of(core, wrap, 0);
        let told = broken(Rule::TooManySetpoints, part, 0);
        assert_eq!((read(&recipe::write(&made)), write_fields(&Fields::from(&made))), (Err(told), Err(told)));
    }
    let six_bytes: Vec<Setpoint> = (0..400).map(|i| Setpoint { turn: 16_384 + i, trim: -20_000 }).collect();
    let longest = Recipe { core: six_bytes.clone(), wrap: six_bytes, ..two(&[], &[]) };
    assert_eq!((recipe::write(&longest).len(), write_fields(&Fields::from(&longest))), (2 * 2_400 + 24, whole(Rule::TooLong)));
}

/// What isn't a setpoint, by its bytes.
#[test]
fn setpoints_by_their_bytes() {
    let of =
        |core: &[u8], core_count: usize, wrap: &[u8], wrap_count: usize| told(&recipe::join(2, b"n", (core, core_count), (wrap, wrap_count), 1)).map(|_| ());
    let cases: [(&[u8], usize, Rule, usize); 16] = [
        (&[], 1, Rule::NoSetpoint, 0),
        (&[0], 1, Rule::NoSetpoint, 0),
        (&[0x80], 1, Rule::NoSetpoint, 0),
        (&[0, 0], 2, Rule::NoSetpoint, 1),
        (&[0, 0, 1], 2, Rule::NoSetpoint, 1),
        (&[0x80, 0, 0], 1, Rule::NoSetpoint, 0),
        (&[0, 0x80, 0], 1, Rule::NoSetpoint, 0),
        (&[0, 0, 0x81, 0x80, 0, 0], 2, Rule::NoSetpoint, 1),
        // the most that three bytes say, and the least that four say
        (&[0xff, 0xff, 0x7f, 0], 1, Rule::TurnTooHigh, 0),
        (&[0x80, 0x80, 0x80, 1, 0], 1, Rule::NoSetpoint, 0),
        (&[0, 0xff, 0xff, 0x7f], 1, Rule::TrimOutOfRange, 0),
        (&[0, 0x80, 0x80, 0x80, 1], 1, Rule::NoSetpoint, 0),
        (&[0, 0], 0, Rule::BytesLeft, 0),
        (&[0, 0, 0], 1, Rule::BytesLeft, 0),
        (&[0, 0, 1, 0], 1, Rule::BytesLeft, 0),
        (&[0xff; 3_000], 0, Rule::BytesLeft, 0),
    ];
    for (bytes, count, rule, setpoint) in cases {
        assert_eq!(of(&[], 0, bytes, count), Err((rule, Part::Wrap, setpoint)), "{bytes:x?}");
        assert_eq!(of(bytes, count, &[], 0), Err((rule, Part::Core, setpoint)), "{bytes:x?}");
        assert_eq!(told(&recipe::join(1, b"n", (&[], 0), (bytes, count), 1)), Err((rule, Part::Wrap, setpoint)), "{bytes:x?}");
    }
    // a setpoint of one list may not go on in the other, nor in the trailer
    assert_eq!(of(&[0], 1, &[0, 1, 0], 1), Err((Rule::BytesLeft, Part::Wrap, 0)));
    assert_eq!(of(&[0], 1, &[0, 0], 1), Err((Rule::NoSetpoint, Part::Core, 0)));
}

/// Where several rules are broken the first is told: each value and each set of fields mends what the one before was told for.
#[test]
fn the_order_of_rules() {
    let bad: &Pairs = &[(7, 0), (1_000_001, 30_000)];
    let mended: [&Pairs; 3] = [&[(7, 0), (7, 30_000)], &[(7, 0), (8, 30_000)], &[(7, 0), (8, 20_000)]];
    let rules = [Rule::TurnTooHigh, Rule::TurnNotRising, Rule::TrimOutOfRange, Rule::TrimLeaps];
    for (i, setpoints) in [bad, mended[0], mended[1], mended[2]].into_iter().enumerate() {
        let told = broken(rules[i], Part::Wrap, 1);
        let made = Recipe { wrap: list(setpoints), ..Recipe::default() };
        assert_eq!((read(&recipe::write(&made)), write_fields(&Fields::from(&made))), (Err(told), Err(told)));
    }
    // the trim isn't read, so the turn isn't judged
    assert_eq!(told(&recipe::join(1, &[], (&[], 0), (&[0xff, 0xff, 0x7f, 0x80], 1), 0)), Err((Rule::NoSetpoint, Part::Wrap, 0)));

    let mut value = recipe::join(3, &[0; 4_000], (&[], 0), (&recipe::write_setpoints(&list(bad)), 401), 0);
    assert_eq!(read(&value), whole(Rule::TooLong));
    value.drain(..3_000);
    assert_eq!(read(&value), whole(Rule::UnknownFormat));
    let end = value.len();
    value[end - 10] = 2;
    value[end - 17] = 1;
    value[end - 16] = 23;
    assert_eq!(read(&value), whole(Rule::PadNotZero));
    value[end - 18..end - 16].fill(0);
    assert_eq!(told(&value), Err((Rule::BadDistance, Part::Wrap, 0)));
    value[end - 16] = 24;
    assert_eq!(told(&value), Err((Rule::TooManySetpoints, Part::Wrap, 0)));
    value[end - 12..end - 10].fill(0);
    value[end - 24..end - 20].fill(0xff);
    assert_eq!(told(&value), Err((Rule::BadDistance, Part::Core, 0)));
    value[end - 24..end - 20].copy_from_slice(&[26, 0, 0, 0]);
    value[end - 20..end - 18].fill(0xff);
    assert_eq!(told(&value), Err((Rule::TooManySetpoints, Part::Core, 0)));

    let uneven = List { turns: vec![9; 402], trims: vec![0; 401] };
    let mut fields = Fields { format: 0, note: vec![0; 4_000], core: uneven.clone(), wrap: uneven, sequence: 0 };
    assert_eq!(write_fields(&fields), whole(Rule::UnknownFormat));
    fields.format = 1;
    assert_eq!(write_fields(&fields), Err(broken(Rule::CoreInFormatOne, Part::Core, 0)));
    fields.format = 2;
    for part in [Part::Wrap, Part::Core] {
        let one = |fields: &mut Fields, change: &dyn Fn(&mut List)| change(if part == Part::Wrap { &mut fields.wrap } else { &mut fields.core });
        assert_eq!(write_fields(&fields), Err(broken(Rule::Unpaired, part, 0)));
        one(&mut fields, &|list| list.turns.truncate(401));
        assert_eq!(write_fields(&fields), Err(broken(Rule::TooManySetpoints, part, 0)));
        one(&mut fields, &|list| *list = List { turns: vec![9, 9], trims: vec![0, 0] });
        assert_eq!(write_fields(&fields), Err(broken(Rule::TurnNotRising, part, 1)));
        one(&mut fields, &|list| *list = List { turns: vec![9], trims: vec![0] });
    }
    assert_eq!(write_fields(&fields), whole(Rule::TooLong));
    fields.note.truncate(3_072 - 24 - 4);
    assert_eq!(write_fields(&fields).map(|value| value.len()), Ok(3_072));
}

/// What can be broken by writing alone, and numbers at the ends of their types.
#[test]
fn fields_that_no_value_has() {
    let pairs = |turns: &[u32], trims: &[i32]| List { turns: turns.to_vec(), trims: trims.to_vec() };
    for core in [pairs(&[1], &[1]), pairs(&[1], &[]), pairs(&[], &[1])] {
        assert_eq!(write_fields(&Fields { format: 1, core, ..Fields::default() }), Err(broken(Rule::CoreInFormatOne, Part::Core, 0)));
    }
    let bad = [
        (pairs(&[1], &[]), Rule::Unpaired, 0),
        (pairs(&[], &[1]), Rule::Unpaired, 0),
        (pairs(&[1, 2], &[1]), Rule::Unpaired, 0),
        (pairs(&[u32::MAX], &[0]), Rule::TurnTooHigh, 0),
        (pairs(&[0], &[i32::MIN]), Rule::TrimOutOfRange, 0),
        (pairs(&[0], &[i32::MAX]), Rule::TrimOutOfRange, 0),
        (pairs(&[0, 1], &[20_000, i32::MIN]), Rule::TrimOutOfRange, 1),
    ];
    for (list, rule, setpoint) in bad {
        for format in [1, 2] {
            let fields = Fields { format, wrap: list.clone(), ..Fields::default() };
            assert_eq!(write_fields(&fields), Err(broken(rule, Part::Wrap, setpoint)));
        }
        let fields = Fields { format: 2, core: list, ..Fields::default() };
        assert_eq!(write_fields(&fields), Err(broken(rule, Part::Core, setpoint)));
    }
}

/// P-xi-6: a short buffer takes as much as it has, and so do lists for setpoints.
#[test]
fn as_far_as_it_goes() {
    let fields = Fields::from(&read(&WORKED).expect("a recipe"));
    for length in [0, 1, 27, 28, 29, 100] {
        let mut room = vec![0xa5; length];
        assert_eq!(recipe::write_to(&mut room, &fields), Ok(28));
        let n = length.min(28);
        assert!(room[..n] == WORKED[..n] && room[n..].iter().all(|byte| *byte == 0xa5));
    }
    let mut room = vec![0xa5; 100];
    assert_eq!(recipe::write_to(&mut room, &Fields { format: 1, ..fields }), Err(broken(Rule::CoreInFormatOne, Part::Core, 0)));
    assert_eq!(room, [0xa5; 100]);

    let value = recipe::write(&two(&[(1, -1), (2, -2)], &[(3, -3), (4, -4), (5, -5)]));
    let (mut turns, mut trims) = ([99; 4], [99; 2]);
    assert_eq!(recipe::setpoints_to(&value, false, &mut turns, &mut trims), Ok(()));
    assert_eq!((turns, trims), ([3, 4, 5, 99], [-3, -4]));
    assert_eq!(recipe::setpoints_to(&value, true, &mut turns, &mut []), Ok(()));
    assert_eq!(turns, [1, 2, 5, 99]);
    assert_eq!(recipe::setpoints_to(&recipe::write(&Recipe::default()), true, &mut turns, &mut trims), Ok(()), "format 1 has no core");
    assert_eq!(recipe::setpoints_to(&value[1..], false, &mut turns, &mut trims), Err(broken(Rule::BadDistance, Part::Core, 0)));
    assert_eq!((turns, trims), ([1, 2, 5, 99], [-3, -4]));
}

/// P-xi-7.
#[test]
fn rank_across_formats() {
    let least = |format, sequence| recipe::write(&Recipe { format, sequence, ..Recipe::default() });
    assert!(outranks(&least(2, 5), &least(1, 5)) && !outranks(&least(1, 5), &least(2, 5)), "18 .. against 10 ..");
    assert!(outranks(&least(1, 6), &least(2, 5)) && outranks(&least(2, 6), &least(1, 5)), "sequence first");
    let noted = |format, note: u8| recipe::write(&Recipe { format, note: vec![note], sequence: 5, ..Recipe::default() });
    assert!(outranks(&noted(1, 9), &noted(2, 8)) && outranks(&noted(2, 9), &noted(1, 8)), "bytes from the first on");

    let mut store = vec![0; limits::RECORD_SLOT];
    for (value, answer) in [
        (least(2, 5), Ok(())),
        (least(1, 5), Err(Refusal::Outranked)),
        (least(2, 5), Ok(())),
        (least(1, 6), Ok(())),
        (least(2, 5), Err(Refusal::Outranked)),
        (least(2, 6), Ok(())),
    ] {
        let before = store.clone();
        assert_eq!(records::put(&mut store, b"/wind/e", &value), answer);
        assert_eq!(store, if answer.is_ok() { records::slot_bytes(b"/wind/e", &value) } else { before });
    }
}

/// P-xi-6: "reading after writing gives the fields, writing after reading gives the bytes, in both formats".
#[test]
fn there_and_back() {
    let mut rng = Rng::new(61);
    let (mut written, mut taken) = (0, 0);
    for _ in 0..6_000 {
        let fields = gen::fields(&mut rng);
        if let Ok(value) = write_fields(&fields) {
            assert_eq!(Fields::from(&read(&value).expect("what is written")), fields);
            written += 1;
        }
        let value = gen::value_to_read(&mut rng);
        if let Ok(recipe) = read(&value) {
            assert_eq!(write_fields(&Fields::from(&recipe)), Ok(value.clone()));
            assert_eq!(recipe::numbers(&value).map(|n| n[3]), Ok((value.len() - if recipe.format == 2 { 24 } else { 16 }) as u64));
            taken += 1;
        }
    }
    assert!((1_500..4_500).contains(&written) && (1_500..4_500).contains(&taken), "{written} {taken}");
}

/// What a value or fields break comes up for each part of each format, and recipes of every kind do too.
#[test]
fn made_up_recipes_of_both_formats() {
    let mut rng = Rng::new(62);
    let mut met: BTreeMap<String, usize> = BTreeMap::new();
    for _ in 0..12_000 {
        let (value, fields, good) = (gen::damaged_recipe(&mut rng), gen::fields(&mut rng), gen::recipe(&mut rng));
        if let Err(Broken { rule, part, .. }) = read(&value) {
            let format = value.get(value.len().saturating_sub(10)).filter(|_| part == Part::Wrap);
            *met.entry(format!("read {rule:?} {part:?} {format:?}")).or_default() += 1;
        }
        if let Err(Broken { rule, part, .. }) = write_fields(&fields) {
            let format = Some(fields.format).filter(|_| part == Part::Wrap);
            *met.entry(format!("write {rule:?} {part:?} {format:?}")).or_default() += 1;
        }
        let [core, wrap] = good.lists().map(|list| ["none", "some"][usize::from(!list.is_empty())]);
        let note = if good.note.is_empty() { "no" } else { "a" };
        *met.entry(format!("format {}: {core} in the core, {wrap} in the wrap, {note} note", good.format)).or_default() += 1;
        *met.entry("400 in each".to_string()).or_default() += usize::from(good.lists().iter().all(|list| list.len() == 400));
        *met.entry("3,072 bytes in format 2".to_string()).or_default() += usize::from(good.format == 2 && recipe::write(&good).len() == 3_072);
        if let (Some(last), Some(first)) = (good.core.last(), good.wrap.first()) {
            *met.entry("no leap from core to wrap".to_string()).or_default() += usize::from((last.trim - first.trim).abs() > 5_000);
            *met.entry("turns needn't rise from core to wrap".to_string()).or_default() += usize::from(last.turn >= first.turn);
        }
    }
    // 4 of the whole value, 8 of each of three lists; 3 of all fields, 6 of each of three lists; 4 and 8 kinds of recipes, and 4 things more
    assert_eq!(met.len(), 4 + 24 + 3 + 18 + 4 + 8 + 4, "{met:#?}");
    assert!(met.values().all(|n| *n >= 10), "{met:#?}");
}
