//! Monitoring maps: empty and full, pairs that meet, pairs dominated by others, on and off the
//! frontier, versions that fall as positions rise (paper 01, Monitoring).

use super::{accepted, monitored_versions};
use crate::base::{question, Base, Plan};
use crate::case::Case;
use crate::limits;
use honest_log::model::Kind;
use honest_log::search_tree::frontier;
use honest_log::{ContentRule, Log, Random, VrfRule};

pub fn cases() -> Vec<Case> {
    let mut list = shapes();
    list.extend(every_map());
    list.push(meeting());
    list.extend(full());
    list
}

const RULE: ContentRule = ContentRule {
    seed: 9,
    shortest: 1,
    longest: 4,
};

/// What a map is like, the old size and the pairs.
type Map = (&'static str, u64, &'static [(u64, u32)]);

/// Maps for a log of 60 entries that has one version more with every fourth entry.
const MAPS: [Map; 24] = [
    ("empty", 40, &[]),
    ("a pair at 0", 40, &[(0, 0)]),
    ("a pair on the frontier", 40, &[(31, 7)]),
    ("a pair below the last entry", 40, &[(38, 9)]),
    ("a pair at the last entry", 40, &[(39, 9)]),
    ("a pair of an old version at the last entry", 40, &[(39, 3)]),
    ("old versions on the frontier", 48, &[(31, 2), (47, 3)]),
    ("pairs that meet", 40, &[(32, 8), (36, 9)]),
    ("pairs that meet a third", 48, &[(32, 8), (36, 9), (47, 11)]),
    ("pairs that meet a lesser", 48, &[(32, 8), (36, 9), (47, 2)]),
    ("a larger version to the left", 40, &[(24, 6), (26, 1)]),
    ("largest of three first", 40, &[(24, 6), (25, 3), (26, 1)]),
    ("largest of three second", 40, &[(24, 3), (25, 6), (26, 1)]),
    ("largest of three last", 40, &[(24, 1), (25, 3), (26, 6)]),
    ("a larger version under the path", 40, &[(16, 4), (20, 2)]),
    ("a pair dominated by a farther one", 40, &[(16, 4), (18, 2)]),
    ("a pair dominated by a nearer one", 40, &[(19, 2), (20, 5)]),
    ("a pair dominated midway", 40, &[(16, 2), (20, 5)]),
    ("a pair dominated later", 40, &[(16, 2), (18, 4), (24, 6)]),
    (
        "versions falling",
        40,
        &[(30, 7), (33, 5), (35, 3), (38, 0)],
    ),
    ("equal versions", 40, &[(1, 0), (2, 0), (4, 0), (8, 0)]),
    (
        "all on the frontier",
        60,
        &[(31, 7), (47, 11), (55, 13), (59, 14)],
    ),
    (
        "larger versions on the path",
        40,
        &[(16, 4), (19, 4), (23, 5), (31, 7)],
    ),
    (
        "smaller versions on the path",
        40,
        &[(16, 4), (19, 0), (23, 0), (31, 0)],
    ),
];

fn shapes() -> Vec<Case> {
    let versions: Vec<(u64, u32)> = (0..15)
        .map(|version| (4 * version, version as u32))
        .collect();
    let log = Plan::new(b"rotor", 60, &versions).log();
    let mut list = Vec::new();
    for (name, old_size, pairs) in MAPS {
        for size in [old_size, 57, 60] {
            let question = question(&log, b"rotor", old_size, pairs, size.max(old_size));
            for kind in [Kind::Search, Kind::Monitor] {
                let name = format!(
                    "{} of {} after {old_size}: {name}",
                    kind.word(),
                    question.size
                );
                list.push(accepted(name, &log, kind, question.clone()));
            }
        }
    }
    list
}

/// Every map over up to five entries with versions 0 and 2, searched and monitored at every size
/// from there to five.
fn every_map() -> Vec<Case> {
    let mut plan = Plan::new(b"tip", 5, &[(0, 2)]);
    plan.others = 0;
    let log = plan.log();
    let mut list = Vec::new();
    for size in 1..=5 {
        for old_size in 0..=size {
            for choice in 0..3u64.pow(old_size as u32) {
                let pairs = chosen_pairs(old_size, choice);
                for kind in [Kind::Search, Kind::Monitor] {
                    let question = question(&log, b"tip", old_size, &pairs, size);
                    let word = kind.word();
                    let name = format!("{word} of {size} after {old_size} with {pairs:?}");
                    list.push(accepted(name, &log, kind, question));
                }
            }
        }
    }
    list
}

/// The digits of a number to base three choose for each position no pair, version 0 or version 2.
fn chosen_pairs(old_size: u64, choice: u64) -> Vec<(u64, u32)> {
    let digit = |position: u64| choice / 3u64.pow(position as u32) % 3;
    let pair = |position: u64| match digit(position) {
        0 => None,
        1 => Some((position, 0)),
        _ => Some((position, 2)),
    };
    (0..old_size).filter_map(pair).collect()
}

/// A random map over a random log, searched or monitored.
pub fn random(random: &mut Random) -> Base {
    let size = random.between(1, 70);
    let mut versions = vec![(0, 0)];
    let mut position = 0;
    let mut version = 0;
    while position < size {
        versions.push((position, version));
        position += random.between(1, 12);
        version += random.below(4) as u32;
    }
    let mut plan = Plan::new(b"wind", size, &versions);
    plan.others = random.below(3) as u32;
    plan.vrf = VrfRule::Hashed {
        seed: random.next(),
    };
    let log = plan.log();
    let old_size = random.between(0, size);
    let one_in = random.between(1, old_size.max(1));
    let kind = *random.pick(&[Kind::Search, Kind::Monitor, Kind::Monitor]);
    let most = match kind {
        Kind::Search => limits::PAIRS - 1,
        Kind::Monitor => limits::PAIRS,
    };
    let mut pairs: Vec<(u64, u32)> = Vec::new();
    for position in 0..old_size {
        if random.one_in(one_in) && pairs.len() < most {
            let greatest = log.greatest_version(b"wind", position + 1).unwrap_or(0);
            pairs.push((position, random.between(0, u64::from(greatest)) as u32));
        }
    }
    let name = format!(
        "{} of {size} after {old_size} with {} random pairs",
        kind.word(),
        pairs.len()
    );
    Base::new(
        &name,
        kind,
        &log,
        question(&log, b"wind", old_size, &pairs, size),
    )
}

/// A log of 200 entries with version 0 from entry 0 on and version 1 from entry 150 on.
pub fn plain_log() -> Log {
    Plan::new(b"pitch", 200, &[(0, 0), (150, 1)]).log()
}

/// All entries of a frontier that lie below one later entry.
fn meeting() -> Case {
    let log = plain_log();
    let frontier = frontier(127).into_iter();
    let pairs: Vec<(u64, u32)> = frontier.map(|position| (position, 0)).collect();
    let question = question(&log, b"pitch", 127, &pairs, 150);
    accepted(
        "monitor whose pairs all meet in one",
        &log,
        Kind::Monitor,
        question,
    )
}

/// What an order of versions is like, and the version of each pair by its number.
type Order = (&'static str, fn(usize) -> usize);

const ORDERS: [Order; 4] = [
    ("rising", |number| number),
    ("falling", |number| limits::PAIRS - 1 - number),
    ("mixed", |number| 29 * number % limits::PAIRS),
    ("far apart", |number| number << 7),
];

/// 48 pairs, each of another version, on the first entries and on every other one, with all that is
/// looked up in the log from its beginning.
fn full() -> Vec<Case> {
    let mut list = Vec::new();
    for (order, version) in ORDERS {
        let versions: Vec<u32> = (0..limits::PAIRS)
            .map(|number| version(number) as u32)
            .collect();
        let mut log = Log::new(VrfRule::Hashed { seed: 9 });
        let additions = RULE.additions(b"mast", &monitored_versions(&versions));
        log.append_run(1, &additions, 100);
        for (apart, old_size, size) in [(1, 48, 48), (1, 48, 61), (2, 95, 95), (2, 95, 100)] {
            let positions = (0..old_size).step_by(apart);
            let pairs: Vec<(u64, u32)> = positions.zip(versions.iter().copied()).collect();
            let name = format!("monitor of {size} after {old_size}, 48 pairs of versions {order}");
            let question = question(&log, b"mast", old_size, &pairs, size);
            list.push(accepted(name, &log, Kind::Monitor, question));
        }
    }
    list
}
