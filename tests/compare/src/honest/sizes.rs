//! Log sizes around powers of two up to 2^40, with every kind of old size (paper 01, Trees).

use super::accepted;
use crate::base::{question, Plan};
use crate::case::Case;
use crate::limits;
use honest_log::model::Kind;
use honest_log::search_tree::frontier;
use honest_log::{ContentRule, Log, VrfRule};

pub fn cases() -> Vec<Case> {
    let mut list = small();
    list.extend(all_old_sizes());
    list.extend(large());
    list.extend(longest());
    list
}

/// Old sizes that stand in different ways to a size, none twice.
fn old_sizes(size: u64) -> Vec<u64> {
    let mut sizes = vec![
        0,
        1,
        size / 3,
        size / 2,
        size / 2 + 1,
        size - size.min(2),
        size - 1,
        size,
    ];
    sizes.retain(|old| *old <= size);
    sizes.sort();
    sizes.dedup();
    sizes
}

/// The first entry of a log, one in its middle and the last that are old, each with a version.
fn pairs(log: &Log, label: &[u8], old_size: u64) -> Vec<(u64, u32)> {
    let mut positions = vec![0, old_size / 3, old_size / 2, old_size.saturating_sub(1)];
    positions.retain(|position| *position < old_size);
    positions.dedup();
    positions
        .into_iter()
        .filter_map(|position| Some((position, log.greatest_version(label, position + 1)?)))
        .collect()
}

fn of_size(log: &Log, label: &[u8], size: u64) -> Vec<Case> {
    let mut list = Vec::new();
    for old_size in old_sizes(size) {
        let pairs = pairs(log, label, old_size);
        for kind in [Kind::Search, Kind::Monitor] {
            let name = format!(
                "{} of {size} after {old_size}, {} pairs",
                kind.word(),
                pairs.len()
            );
            let question = question(log, label, old_size, &pairs, size);
            list.push(accepted(name, log, kind, question));
        }
    }
    list
}

/// Sizes that are counted entry by entry.
fn small() -> Vec<Case> {
    let plan = Plan::new(
        b"fan",
        130,
        &[(0, 0), (1, 1), (4, 2), (20, 4), (60, 7), (128, 8)],
    );
    let log = plan.log();
    [
        1, 2, 3, 4, 5, 6, 7, 8, 9, 15, 16, 17, 31, 32, 33, 63, 64, 65, 127, 128, 129,
    ]
    .into_iter()
    .flat_map(|size| of_size(&log, b"fan", size))
    .collect()
}

/// Every old size of every small size, with nothing to look up.
fn all_old_sizes() -> Vec<Case> {
    let log = Plan::new(b"fan", 33, &[(0, 0)]).log();
    let mut list = Vec::new();
    for size in 1..=33 {
        for old_size in 0..=size {
            let name = format!("monitor of {size} after {old_size}, empty map");
            let question = question(&log, b"fan", old_size, &[], size);
            list.push(accepted(name, &log, Kind::Monitor, question));
        }
    }
    list
}

/// A log of 2^40 entries in runs of equal ones.
pub fn long_log() -> Log {
    let mut log = Log::new(VrfRule::Hashed { seed: 5 });
    let rule = ContentRule {
        seed: 5,
        shortest: 1,
        longest: 8,
    };
    let mut version = 0;
    let mut time = 1_000;
    while log.size() < limits::SIZE {
        let size = log.size();
        let count = (size / 3 + 1).min(limits::SIZE - size);
        let other = rule.addition(b"else", version);
        log.append_run(time, &[rule.addition(b"gear", version), other], count);
        version += 1;
        time += 60_000;
    }
    log
}

fn large() -> Vec<Case> {
    let log = long_log();
    let mut list = Vec::new();
    for exponent in [10, 20, 31, 32, 33, 39, 40] {
        let power = 1u64 << exponent;
        for size in [power - 1, power, power + 1] {
            if size <= limits::SIZE {
                list.extend(of_size(&log, b"gear", size).into_iter().step_by(3));
            }
        }
    }
    list
}

/// The largest log, all of it kept or none, and the one with the longest frontier.
fn longest() -> Vec<Case> {
    let log = long_log();
    let mut list = Vec::new();
    for (size, old_size) in [
        (limits::SIZE, limits::SIZE),
        (limits::SIZE, 0),
        (limits::SIZE - 1, limits::SIZE - 1),
    ] {
        let stands = if old_size > 0 {
            frontier(old_size)
        } else {
            Vec::new()
        };
        let pairs: Vec<(u64, u32)> = stands
            .into_iter()
            .filter_map(|position| Some((position, log.greatest_version(b"gear", position + 1)?)))
            .collect();
        for kind in [Kind::Search, Kind::Monitor] {
            let name = format!(
                "{} of {size} after {old_size}, {} pairs on the frontier",
                kind.word(),
                pairs.len()
            );
            list.push(accepted(
                name,
                &log,
                kind,
                question(&log, b"gear", old_size, &pairs, size),
            ));
        }
    }
    list
}
