//! What the cases cover, and that they are the same in every run; no checker is asked.

use compare::case::{Acceptance, Answer, Case, Folder, Inputs};
use compare::limits;
use compare::small::{blocks, LONGEST, MOST_BLOCKS};
use compare::text::Lines;
use std::collections::{BTreeMap, BTreeSet};

mod names;

/// How many numbers there are, acceptance aside.
const NUMBERS: u8 = 16;

/// How many cases are answered with each number, 0 being acceptance.
fn counts(cases: &[Case]) -> BTreeMap<u8, usize> {
    let mut counts = BTreeMap::new();
    for case in cases {
        let answer = case.answer.as_ref().expect("a fixed case is known");
        *counts.entry(answer.number()).or_default() += 1;
    }
    counts
}

fn assert_at_least(counts: &BTreeMap<u8, usize>, least: usize) {
    for number in 0..=NUMBERS {
        let count = counts.get(&number).copied().unwrap_or(0);
        assert!(count >= least, "{count} cases of number {number}");
    }
    assert_eq!(counts.len(), usize::from(NUMBERS) + 1);
}

#[test]
fn named_cases_have_ten_causes_for_each_number() {
    assert_at_least(&counts(&compare::named()), 10);
}

#[test]
fn small_cases_have_two_causes_for_each_number() {
    let cases = compare::small();
    assert!(cases.len() >= 60);
    assert_at_least(&counts(&cases), 2);
}

#[test]
fn small_cases_are_small() {
    for case in compare::small() {
        assert!(blocks(&case) <= MOST_BLOCKS, "{}", case.name);
        assert!(case.inputs.response.len() < LONGEST, "{}", case.name);
    }
}

#[test]
fn blocks_of_the_first_search() {
    let cases = compare::small();
    let first = cases.iter().find(|case| case.name == "small first search");
    // Two prefix leaves of two blocks each, one log leaf, HMAC's two strings of two blocks each.
    assert_eq!(first.map(blocks), Some(9));
}

/// The greatest of a number over all accepted cases.
fn greatest(cases: &[Case], number: impl Fn(&Case) -> usize) -> usize {
    let accepted = |case: &&Case| matches!(case.answer, Some(Answer::Accepted(_)));
    cases.iter().filter(accepted).map(number).max().unwrap_or(0)
}

/// The steps of a response.
fn steps(case: &Case) -> usize {
    Lines::read(&case.inputs.response).of("step").len()
}

/// The most siblings in a lookup of a response.
fn siblings(case: &Case) -> usize {
    let lines = Lines::read(&case.inputs.response);
    let lookups = ["in", "no", "nl"]
        .into_iter()
        .flat_map(|word| lines.of(word));
    let last = |line: usize| lines.0[line].last().map_or(0, |field| field.len() / 64);
    lookups.map(last).max().unwrap_or(0)
}

fn accepted(case: &Case) -> &Acceptance {
    match case.answer.as_ref() {
        Some(Answer::Accepted(acceptance)) => acceptance,
        _ => panic!("{} is refused", case.name),
    }
}

#[test]
fn accepted_cases_reach_every_limit() {
    let cases = compare::named();
    let inputs = |length: fn(&Inputs) -> usize| greatest(&cases, |case| length(&case.inputs));
    assert_eq!(inputs(|inputs| inputs.response.len()), limits::RESPONSE);
    assert_eq!(inputs(|inputs| inputs.settings.len()), limits::SETTINGS);
    assert_eq!(inputs(|inputs| inputs.signed.len()), limits::SIGNED);
    assert_eq!(inputs(|inputs| inputs.sheet.len()), limits::SHEET);
    assert_eq!(greatest(&cases, siblings), limits::SIBLINGS);
    assert_eq!(greatest(&cases, steps), limits::SHEET / limits::RECORD);
    let acceptance =
        |number: fn(&Acceptance) -> usize| greatest(&cases, |case| number(accepted(case)));
    assert_eq!(
        acceptance(|given| given.size as usize),
        limits::SIZE as usize
    );
    assert_eq!(acceptance(|given| given.pairs), limits::PAIRS);
    assert_eq!(
        acceptance(|given| given.value.as_ref().map_or(0, Vec::len)),
        limits::VALUE
    );
    assert_eq!(
        acceptance(|given| given.version.unwrap_or(0) as usize),
        limits::VERSION as usize
    );
}

/// Asserts that there are cases of a kind with these names and numbers.
fn assert_answered(cases: &[Case], kind: &str, names: &[(u8, &[&str])]) {
    for (number, names) in names {
        for name in *names {
            let case = cases.iter().find(|case| case.name == *name);
            let case = case.unwrap_or_else(|| panic!("no case {name}"));
            let answer = case.answer.as_ref().map(|answer| answer.number());
            assert_eq!(answer, Some(*number), "{name}");
            assert_eq!(case.inputs.kind.word(), kind, "{name}");
        }
    }
}

#[test]
fn the_papers_examples_are_cases() {
    assert_answered(&compare::named(), "search", &names::EXAMPLES);
}

#[test]
fn monitoring_of_every_kind_is_a_case() {
    let cases = compare::named();
    assert_answered(&cases, "monitor", &names::MONITORINGS);
    let first = |name: &str| cases.iter().find(|case| case.name == name);
    let from_new = first("monitoring of 14 from new").expect("it is a case");
    assert_eq!(from_new.inputs.sheet, []);
}

#[test]
fn names_are_distinct() {
    for cases in [compare::named(), compare::small()] {
        let names: BTreeSet<&str> = cases.iter().map(|case| &case.name[..]).collect();
        assert_eq!(names.len(), cases.len());
    }
}

#[test]
fn fixed_cases_are_the_same_in_every_run() {
    assert!(compare::named() == compare::named());
    assert!(compare::small() == compare::small());
}

#[test]
fn seeds_decide_stream_and_folders() {
    let stream = |seed: u64| compare::stream(seed).take(400);
    assert!(stream(7).eq(stream(7)));
    assert!(!stream(7).eq(stream(8)));
    let folders = |seed: u64| {
        let one = |folder: &Folder| format!("{folder:?}");
        compare::folders(seed)
            .iter()
            .map(one)
            .collect::<Vec<String>>()
    };
    assert_eq!(folders(7), folders(7));
    assert_ne!(folders(7), folders(8));
}

#[test]
fn the_stream_meets_every_number_and_large_monitoring() {
    let known = |case: &Case| case.answer.is_some();
    let cases: Vec<Case> = compare::stream(3).filter(known).take(4_000).collect();
    assert_at_least(&counts(&cases), 1);
    for part in ["that asks for", "random long paths", " lost at "] {
        let named = |case: &&Case| case.name.contains(part);
        assert!(cases.iter().filter(named).count() > 1, "{part}");
    }
}
