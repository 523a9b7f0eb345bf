//! Several faults at once.

use super::*;

/// The second search with one more fault, each of which leaves the others possible.
fn with_fault(mut example: Example, number: u64) -> Example {
    let log = log();
    let complete = complete_at_entry_1(&log);
    let (first_lookup, second_lookup) = complete.split_at(complete.find("nl").unwrap());
    match number {
        1 => example.identifier.truncate(15),
        2 => example.settings[2] = 3,
        3 => example.state.push(b'x'),
        4 => example.sheet.push(0),
        5 => example.response.push(b'x'),
        6 => return example.with("\t6162\n", "\t6163\n"),
        7 => return example.with("head\t3", "head\t2"),
        8 => return example.with("target\t1", "target\t4294967295"),
        9 => return example.with("step\t1\t-", &format!("step\t1\t{}", commitment0())),
        10 => drop(example.sheet.drain(72..108)),
        11 => example.clock = 0,
        12 => return example.with(&hex(&log.pair), &hex(&[0; 32])),
        13 => return example.with(&format!("{first_lookup}{second_lookup}"), first_lookup),
        14 => return example.with_state(&hex(&log.first_two), &hex(&[5; 32])),
        15 => example.signed[0] ^= 1,
        _ => example.value_room = 1,
    }
    example
}

// Of two faults the lower number answers, whichever two they are.
#[test]
fn lowest_number() {
    for low in 1..=16 {
        let example = with_fault(second_search(), low);
        assert_eq!(example.number(), low);
        for high in low + 1..=16 {
            assert_eq!(with_fault(example.clone(), high).number(), low, "{high}");
        }
    }
}

// With all faults from a number on, that number answers.
#[test]
fn all_later_faults() {
    for first in 1..=16 {
        let example = (first..=16).fold(second_search(), with_fault);
        assert_eq!(example.number(), first);
    }
}
