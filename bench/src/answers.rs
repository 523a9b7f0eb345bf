//! Honest answers to searches and to monitoring: long ones, and those of a log of nearly 2^40 entries.

use crate::inputs::Inputs;
use honest_log::ladder::{binary_ladder, monitoring_ladder};
use honest_log::limits;
use honest_log::model::{Exchange, Settings};
use honest_log::vrf::outputs_sharing;
use honest_log::{ContentRule, Log, Question, VrfRule};
use std::collections::BTreeSet;

const LABEL: &[u8] = b"hub";
const TIME: u64 = 1_700_000_000_000;
const ACCEPTED: &str = "an honest answer is accepted";

/// As many bits as outputs may share that differ in the next six, for the 64 versions of the longest
/// ladder.
const SHARED_BITS: usize = limits::SIBLINGS - 6;

/// As many pairs as the right paths of an answer of 2^40 entries have room for.
const PAIRS: u64 = 36;

/// The bytes of a version and its output.
const RECORD: usize = 36;

const CONTENTS: ContentRule = ContentRule {
    seed: 1,
    shortest: limits::VALUE,
    longest: limits::VALUE,
};

/// Keys as long as the suite's (001 15.1), bounds of a minute and a day.
fn settings() -> Settings {
    Settings {
        suite: limits::SUITE,
        mode: limits::MODE,
        signature_key: (1..=65).collect(),
        vrf_key: (101..=133).collect(),
        max_ahead: 60_000,
        max_behind: 86_400_000,
        monitoring_window: 604_800_000,
        maximum_lifetime: None,
    }
}

/// What a checker asks that has seen the first entries of a log, and has this map.
fn question(log: &Log, size: u64, old_size: u64, map: &[(u64, u32)]) -> Question {
    Question {
        identifier: (0xa0..0xb0).collect(),
        clock: log.entry(size - 1).time,
        settings: settings(),
        state: log.state(LABEL, old_size, map),
        size,
    }
}

/// What passes when it searches, if it must be accepted.
fn searched(log: &Log, size: u64, old_size: u64, map: &[(u64, u32)]) -> Option<Exchange> {
    let question = question(log, size, old_size, map);
    log.search(&question).ok()?.accepted()
}

/// What passes when it monitors, if it must be accepted.
fn monitored(log: &Log, size: u64, old_size: u64, map: &[(u64, u32)]) -> Option<Exchange> {
    let question = question(log, size, old_size, map);
    log.monitor(&question).ok()?.accepted()
}

/// A log of equal entries that hold some versions; these and the others that are looked up share some
/// bits of their outputs: so many more siblings in every lookup.
fn equal_entries_of(size: u64, versions: &[u32], looked_up: &[u32], bits: usize) -> Log {
    let outputs = outputs_sharing(&[0x39; 32], bits, looked_up.len());
    let hashed = VrfRule::Hashed { seed: 1 };
    let mut log = Log::new(VrfRule::table(LABEL, looked_up, &outputs, hashed));
    log.append_run(TIME, &CONTENTS.additions(LABEL, versions), size);
    log
}

/// A log of equal entries in which the ladder of a target is looked up.
fn equal_entries(size: u64, target: u32, bits: usize) -> Log {
    let ladder = binary_ladder(target);
    equal_entries_of(size, &monitoring_ladder(target), &ladder, bits)
}

/// A log of equal entries with all versions that monitoring a map looks up.
fn monitored_entries(size: u64, map: &[(u64, u32)], bits: usize) -> Log {
    let ladders = map.iter().flat_map(|pair| monitoring_ladder(pair.1));
    let versions: Vec<u32> = ladders.collect::<BTreeSet<u32>>().into_iter().collect();
    equal_entries_of(size, &versions, &versions, bits)
}

/// The last of some rising choices whose exchange has a response of at most so many bytes.
fn longest(
    length: usize,
    choices: usize,
    exchange: impl Fn(usize) -> Option<Exchange>,
) -> Exchange {
    let fits =
        |choice| exchange(choice).is_some_and(|exchange| exchange.response.text().len() <= length);
    let (mut fitting, mut end) = (0, choices);
    while fitting + 1 < end {
        let middle = (fitting + end) / 2;
        if fits(middle) {
            fitting = middle;
        } else {
            end = middle;
        }
    }
    exchange(fitting).expect(ACCEPTED)
}

/// One entry with the longest ladder and up to 255 siblings in each lookup, for a checker with a
/// history and a map; of at most so many bytes.
pub fn long_lookups(length: usize) -> Exchange {
    longest(length, SHARED_BITS + 1, |bits| {
        let log = equal_entries(8, limits::GREATEST_VERSION, bits);
        searched(&log, 8, 5, &[(1, 0), (3, 9), (4, 1 << 20)])
    })
}

/// Forty entries with a ladder each, of a log of 2^40 - 1, for a new checker; the ladders grow first,
/// then the lookups; of at most so many bytes.
pub fn many_entries(length: usize) -> Exchange {
    let size = *limits::SIZES.end() - 1;
    longest(length, 64, |choice| {
        let level = choice.min(31);
        let log = equal_entries(size, (1 << level) - 1, choice - level);
        searched(&log, size, 0, &[])
    })
}

/// One entry with the longest ladder's versions and up to 255 siblings in each lookup, for monitoring;
/// of at most so many bytes.
pub fn long_monitoring(length: usize) -> Exchange {
    let map = [(6, limits::GREATEST_VERSION)];
    longest(length, SHARED_BITS + 1, |bits| {
        monitored(&monitored_entries(8, &map, bits), 8, 7, &map)
    })
}

/// Up to 48 pairs with versions of their own, each looked up at an entry at least, for monitoring; of
/// at most so many bytes.
pub fn many_versions(length: usize) -> Exchange {
    longest(length, limits::MAP + 1, |pairs| {
        let version = |number: u64| limits::GREATEST_VERSION - (number as u32) * 0x0135_7913;
        let map: Vec<(u64, u32)> = (0..pairs as u64)
            .rev()
            .map(|number| (94 - 2 * number, version(number)))
            .collect();
        monitored(&monitored_entries(96, &map, 0), 96, 95, &map)
    })
}

/// Monitoring of a log of 2^40 - 1 entries for up to 48 pairs, whose right paths are long; of at most
/// so many bytes.
pub fn many_paths(length: usize) -> Exchange {
    let size = *limits::SIZES.end() - 1;
    longest(length, 4 * limits::MAP + 1, |choice| {
        let pairs = (choice as u64).min(limits::MAP as u64);
        let version = (1 << (choice as u64 - pairs).min(31)) - 1;
        let position = |number: u64| (size / 2 / 48) * number;
        let map: Vec<(u64, u32)> = (0..pairs)
            .map(|number| (position(number), version))
            .collect();
        monitored(&monitored_entries(size, &map, 0), size, size / 2, &map)
    })
}

/// Three entries with short ladders, for a new checker.
pub fn short() -> Exchange {
    searched(&equal_entries(7, 5, 0), 7, 0, &[]).expect(ACCEPTED)
}

/// The same log monitored for two pairs.
pub fn short_monitoring() -> Exchange {
    let map = [(2, 5), (4, 1)];
    monitored(&monitored_entries(7, &map, 0), 7, 6, &map).expect(ACCEPTED)
}

/// Monitoring that asks for more versions than there can be outputs, of which as many are given as can
/// be; it is refused for that, before its lookups are tried, so that these need no siblings.
pub fn most_versions() -> Exchange {
    let version = |number: u64| (1 << 31) - 1 + ((number as u32) << 25) + (1 << 25) - 1;
    let map: Vec<(u64, u32)> = (0..limits::MAP as u64)
        .map(|number| (2 * number, version(number)))
        .collect();
    let log = monitored_entries(100, &map, 0);
    let question = question(&log, 100, 97, &map);
    let mut exchange = log.monitor(&question).expect("it can be written").exchange;
    exchange.sheet.truncate(limits::SHEET / RECORD);
    for entry in &mut exchange.response.entries {
        for lookup in &mut entry.lookups {
            lookup.siblings.clear();
        }
    }
    exchange
}

/// A log of 2^40 entries in runs of equal ones, each run with one more version.
fn growing() -> Log {
    let mut log = Log::new(VrfRule::Hashed { seed: 5 });
    let size = *limits::SIZES.end();
    for version in 0.. {
        let left = size - log.size();
        if left == 0 {
            break;
        }
        let count = (log.size() / 3 + 1).min(left);
        let time = TIME + u64::from(version) * 60_000;
        log.append_run(time, &[CONTENTS.addition(LABEL, version)], count);
    }
    log
}

/// Both calls on a log of about 2^40 and of about 2^39 entries, from new, with the longest history
/// and with as full a map as an answer to monitoring has room for.
pub fn large_logs() -> Vec<Inputs> {
    let log = growing();
    let end = *limits::SIZES.end();
    let mut list = Vec::new();
    for (size, old_size, pairs) in [
        (end - 1, 0, 0),
        (end - 1, end / 2 - 1, PAIRS),
        (end - 1, end - 1, PAIRS),
        (end, end - 1, 0),
        (end / 2 + 1, 0, 0),
        (end / 2 + 1, end / 2 - 1, PAIRS),
        (end / 3 * 2, 0, 0),
    ] {
        let position = |number: u64| (old_size / pairs) * number + number * number;
        let map: Vec<(u64, u32)> = (0..pairs).map(|number| (position(number), 0)).collect();
        let name = format!("of {size} after {old_size}, {pairs} pairs");
        for exchange in [
            searched(&log, size, old_size, &map),
            monitored(&monitored_entries(size, &map, 0), size, old_size, &map),
        ] {
            list.push(Inputs::of(&name, 0, &exchange.expect(ACCEPTED)));
        }
    }
    list
}
