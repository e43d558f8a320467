//! The sizes, refusals and calls of the C header are the model's.

use model::answers::{MOST_CAP, MOST_CREW_BYTES, SPARE_BYTES, STEP_BYTES};
use model::card::{CARD, MOST_BYTES, MOST_CARDS};
use model::job::{MOST_CLASS_LEVELS, MOST_PEOPLE, MOST_RULES, MOST_STEPS};
use model::refusal::*;
use model::signing::{Work, MOST_REFUSALS};
use std::mem::{align_of, offset_of, size_of};

const TEXT: &str = include_str!("../../include/fulmarinvar.h");

/// The number that stands behind a name.
fn stated(name: &str) -> usize {
    let full = format!("FULMARINVAR_{name}");
    let mut words = TEXT.split_whitespace().skip_while(|word| **word != full).skip(1);
    let number = words.find(|word| *word != "=").unwrap_or_else(|| panic!("the header has no {full}"));
    number.trim_end_matches(',').parse().unwrap_or_else(|_| panic!("{full} is {number}"))
}

#[test]
fn sizes_are_the_headers() {
    assert_eq!(stated("CARD_BYTES"), CARD);
    assert_eq!(stated("MOST_CARDS"), MOST_CARDS);
    assert_eq!(stated("MOST_SHEET_BYTES"), MOST_BYTES);
    assert_eq!(stated("MOST_PEOPLE"), MOST_PEOPLE);
    assert_eq!(stated("MOST_STEPS"), MOST_STEPS);
    assert_eq!(stated("MOST_RULES"), MOST_RULES);
    assert_eq!(stated("MOST_CLASS_LEVELS"), MOST_CLASS_LEVELS);
    assert_eq!(stated("STEP_BYTES"), STEP_BYTES);
    assert_eq!(stated("MOST_CREW_BYTES"), MOST_CREW_BYTES);
    assert_eq!(stated("SPARE_BYTES"), SPARE_BYTES);
    assert_eq!(stated("MOST_CAP"), MOST_CAP as usize);
    assert_eq!(stated("MOST_REFUSALS"), MOST_REFUSALS as usize);
}

/// The fields of the header's struct as they stand, with their types and lengths.
fn fields_of_the_job() -> Vec<String> {
    let (_, inside) = TEXT.split_once("struct fulmarinvar_job {").expect("the header has the struct");
    let (inside, _) = inside.split_once("};").expect("the struct ends");
    let field = |line: &str| line.split_once(';').map(|(field, _)| field.trim().to_string());
    inside.lines().filter_map(field).collect()
}

#[test]
fn a_job_under_work_is_laid_out_as_the_headers() {
    let stated = [
        "uint32_t refusals",
        "uint32_t sheet_len",
        "uint8_t sheet[FULMARINVAR_MOST_SHEET_BYTES]",
        "uint8_t signer[FULMARINVAR_MOST_STEPS]",
    ];
    assert_eq!(fields_of_the_job(), stated);
    let offsets = [
        offset_of!(Work, refusals),
        offset_of!(Work, sheet_len),
        offset_of!(Work, sheet),
        offset_of!(Work, signer),
        size_of::<Work>(),
    ];
    assert_eq!(offsets, [0, 4, 8, 2264, 2276]);
    assert_eq!(align_of::<Work>(), 4);
}

/// The names of the calls that stand after a word, in the order of the text.
fn calls_after<'a>(text: &'a str, word: &str) -> Vec<&'a str> {
    let lines = text.lines().filter_map(|line| line.trim_start().strip_prefix(word));
    lines.filter(|rest| rest.starts_with("fulmarinvar_")).filter_map(|rest| rest.split('(').next()).collect()
}

#[test]
fn calls_are_the_headers() {
    let bound = calls_after(include_str!("../src/library.rs"), "fn ");
    assert_eq!(calls_after(TEXT, "uint32_t "), bound);
    assert_eq!(bound.len(), 6);
}

#[test]
fn a_crew_by_trial_is_called_as_a_crew_is() {
    let arguments = |call: &str| TEXT.split_once(&format!("uint32_t {call}("))?.1.split_once(';').map(|found| found.0);
    assert!(arguments("fulmarinvar_crew").is_some());
    assert_eq!(arguments("fulmarinvar_crew_by_trial"), arguments("fulmarinvar_crew"));
}

#[test]
fn refusals_are_the_headers() {
    let named = [
        ("SHORT_ANSWER", SHORT_ANSWER),
        ("CAP_TOO_HIGH", CAP_TOO_HIGH),
        ("BAD_LENGTH", BAD_LENGTH),
        ("BAD_HEADER", BAD_HEADER),
        ("BAD_INDEX", BAD_INDEX),
        ("CARD_AGAIN", CARD_AGAIN),
        ("WRONG_KIND", WRONG_KIND),
        ("BAD_FIELD", BAD_FIELD),
        ("NONE_OR_TOO_MANY", NONE_OR_TOO_MANY),
        ("TAG_TWICE", TAG_TWICE),
        ("BENCH_IN_TWO_SHOPS", CLASS_IN_TWO_CLASSES),
        ("CLASS_IN_TWO_CLASSES", CLASS_IN_TWO_CLASSES),
        ("LOOSE_CARD", LOOSE_CARD),
        ("NO_PLAN", NO_PLAN),
        ("UNKNOWN", UNKNOWN),
        ("STEP_SIGNED", STEP_SIGNED),
        ("NOT_GRANTED", NOT_GRANTED),
    ];
    for (name, number) in named {
        assert_eq!(stated(name), number as usize, "{name}");
    }
}
