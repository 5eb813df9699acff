//! The declarations in `raw` are those of the C header, which tests/header holds to the proved source: names, parameters in order with their types, sizes and
//! refusals. And the functions take slices of any length.

use starterbell::recipe::{self, Format, Part, Rule};
use starterbell::{raw, Refusal};
use std::collections::BTreeMap;

const HEADER: &str = include_str!("../../include/starterbell.h");
const SOURCE: &str = include_str!("../src/raw.rs");

/// The text between two marks, for each time they stand one after another.
fn between<'a>(text: &'a str, open: &'a str, close: &'a str) -> impl Iterator<Item = &'a str> {
    text.split(open).skip(1).map(move |rest| rest.split(close).next().unwrap_or(rest))
}

/// The types of a C prototype's parameters.
fn c_types(parameters: &str) -> Vec<String> {
    let parameter = |parameter: &str| {
        let words: Vec<&str> = parameter.split_whitespace().collect();
        let (name, kind) = words.split_last().expect("a parameter");
        format!("{}{}", kind.join(" "), if name.starts_with('*') { " *" } else { "" })
    };
    parameters.split(',').map(parameter).collect()
}

/// The C types that a word for a parameter in `raw` stands for.
fn types_of(word: &str) -> &'static [&'static str] {
    match word {
        "bytes" => &["const uint8_t *", "size_t"],
        "bytes_mut" => &["uint8_t *", "size_t"],
        "numbers" => &["const uint64_t *", "size_t"],
        "numbers_mut" => &["uint64_t *", "size_t"],
        "turns" => &["const uint32_t *", "size_t"],
        "turns_mut" => &["uint32_t *", "size_t"],
        "trims" => &["const int32_t *", "size_t"],
        "trims_mut" => &["int32_t *", "size_t"],
        "u32" => &["uint32_t"],
        "u64" => &["uint64_t"],
        "usize" => &["size_t"],
        _ => panic!("{word} is no word for a parameter"),
    }
}

#[test]
fn declares_what_the_header_declares() {
    let header: BTreeMap<String, Vec<String>> = between(HEADER, "\nuint32_t starterbell_", ");")
        .map(|prototype| prototype.split_once('(').expect("parameters"))
        .map(|(name, parameters)| (name.to_string(), c_types(parameters)))
        .collect();
    let source: BTreeMap<String, Vec<String>> = between(SOURCE, " = starterbell_", ");")
        .map(|declaration| declaration.split_once('(').expect("parameters"))
        .map(|(name, parameters)| {
            let words = parameters.split(',').map(|parameter| parameter.split_once(':').expect("a type").1.trim());
            (name.to_string(), words.flat_map(types_of).map(|word| word.to_string()).collect())
        })
        .collect();
    assert_eq!(source, header);
    assert_eq!(source.len(), 22);
}

/// A number that the header defines.
fn defined(name: &str) -> usize {
    let line = between(HEADER, "#define STARTERBELL_", "\n").find_map(|line| line.strip_prefix(name)?.strip_prefix(' '));
    line.and_then(|number| number.trim().parse().ok()).unwrap_or_else(|| panic!("the header has no {name}"))
}

#[test]
fn has_the_headers_sizes() {
    assert_eq!(raw::BOX, defined("BOX"));
    assert_eq!(raw::CONNECTION, defined("CONNECTION"));
    assert_eq!(raw::LOOKUP, defined("LOOKUP"));
    assert_eq!(raw::CONTACT, defined("CONTACT_SLOT"));
    assert_eq!(raw::MOST_CONTACTS, defined("CONTACT_SLOTS_MOST"));
    assert_eq!(raw::MOST_KEY, defined("KEY_MOST"));
    assert_eq!(raw::MOST_VALUE, defined("VALUE_MOST"));
    assert_eq!(raw::KEY_AT, defined("RECORD_KEY_AT"));
    assert_eq!(raw::VALUE_AT, defined("RECORD_VALUE_AT"));
    assert_eq!(raw::RECORD, defined("RECORD_SLOT"));
    assert_eq!(raw::MOST_RECORDS, defined("RECORD_SLOTS_MOST"));
    assert_eq!(raw::BUFFER, defined("RECEIVE_BUFFER"));
    assert_eq!(raw::REPLY, defined("REPLY_BUFFER"));
}

#[test]
fn recipes_have_the_headers_limits() {
    assert_eq!(recipe::VALUE_MAX, defined("VALUE_MOST"));
    assert_eq!(recipe::SETPOINTS_MAX, defined("SETPOINTS_MOST"));
    assert_eq!(recipe::TURN_MAX as usize, defined("TURN_MOST"));
    assert_eq!(recipe::TRIM_MAX as usize, defined("TRIM_MOST"));
    assert_eq!(recipe::LEAP_MAX as usize, defined("LEAP_MOST"));
}

/// The cases of an enum of the header, with what stands before each name left out.
fn cases(name: &str, before: &str) -> Vec<(String, u32)> {
    let body = between(HEADER, &format!("\nenum {name} {{"), "};").next().unwrap_or_else(|| panic!("the header has no enum {name}")).to_string();
    let case = |line: &str| {
        let (name, number) = line.trim().strip_prefix(before)?.split_once(" = ")?;
        Some((name.replace('_', "").to_lowercase(), number.trim_end_matches(',').parse().expect("a number")))
    };
    body.lines().filter_map(case).collect()
}

/// The same of ours.
fn named<T: std::fmt::Debug>(all: &[T], number: impl Fn(&T) -> u32) -> Vec<(String, u32)> {
    all.iter().map(|case| (format!("{case:?}").to_lowercase(), number(case))).collect()
}

#[test]
fn has_the_headers_refusals() {
    assert_eq!(cases("starterbell_refusal", "STARTERBELL_REFUSAL_"), named(&Refusal::ALL, |refusal| refusal.number()));
}

#[test]
fn has_the_headers_rules_parts_and_formats() {
    assert_eq!(Rule::ALL[0], Rule::Unnamed, "which the header hasn't got");
    assert_eq!(cases("starterbell_recipe_rule", "STARTERBELL_RECIPE_"), named(&Rule::ALL[1..], |rule| rule.number()));
    assert_eq!(cases("starterbell_recipe_part", "STARTERBELL_RECIPE_"), named(&Part::ALL, |part| *part as u32));
    assert_eq!(cases("starterbell_recipe_format", "STARTERBELL_RECIPE_FORMAT_"), named(&Format::ALL, |format| *format as u32));
}

#[test]
fn takes_slices_of_any_length() {
    let mut out = [7; 2];
    assert_eq!(raw::start(&mut [], b"id", &[]), 0, "no room for a box");
    assert_eq!(raw::nearest(&[], &[], b"key", &mut out), 0);
    assert_eq!(out, [7; 2], "a refusal writes nothing");
    assert_eq!(raw::receive(&[], &mut [], &mut [], &[], &mut [], &mut [], &mut [], &mut out), 0);
    assert_eq!(out, [0; 2], "but receive says that nothing was taken, as far as that fits");
    assert_eq!(raw::lookup_next(&mut [0; raw::LOOKUP - 1], &mut []), 0);
    assert_eq!(raw::read(&[8, 5], &mut []), 64, "numbers that don't fit are left out");
    assert_eq!(raw::find(&[], b"key", &mut []), 65);
    assert_eq!(raw::recipe_read(&[], &mut []), 9);
    assert_eq!(raw::recipe_setpoints(&[], 0, &mut [], &mut []), 9);
    assert_eq!(raw::recipe_write(&mut [], 1, &[], &[], &[], &[], &[], 0, &mut []), 64);
}
