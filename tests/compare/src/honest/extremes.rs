//! Versions, labels, values, times, settings and depths at the ends of what is allowed (paper 01,
//! What a call is given).

use super::accepted;
use crate::base::{question, Plan};
use crate::case::Case;
use crate::limits;
use honest_log::ladder::{binary_ladder, monitoring_ladder};
use honest_log::model::Kind;
use honest_log::vrf::{outputs_leaving, outputs_sharing};
use honest_log::{ContentRule, Log, VrfRule};

pub fn cases() -> Vec<Case> {
    let mut list = versions();
    list.extend(texts());
    list.push(long_value());
    list.extend(times());
    list.extend(depths());
    list.extend(empty_trees());
    list.extend(settings());
    list
}

const RULE: ContentRule = ContentRule {
    seed: 3,
    shortest: 2,
    longest: 9,
};

/// A log of five entries in which a version is the greatest from entry 2 on; of the versions below
/// it only those that a search or monitoring looks up are there.
pub fn with_greatest(version: u32, vrf: VrfRule) -> Log {
    let mut log = Log::new(vrf);
    let versions = monitoring_ladder(version);
    let early = versions.len() / 2;
    log.append(5, &[]);
    log.append(6, &RULE.additions(b"hub", &versions[..early]));
    log.append(7, &RULE.additions(b"hub", &versions[early..]));
    log.append(8, &[]);
    log.append(9, &RULE.additions(b"rim", &[0]));
    log
}

/// Versions around powers of two and the greatest one.
fn versions() -> Vec<Case> {
    let mut chosen: Vec<u32> = (0..20).collect();
    for exponent in 5..32 {
        let power = 1u32 << exponent;
        chosen.extend([power - 2, power - 1, power]);
    }
    chosen.extend([limits::VERSION - 1, limits::VERSION]);
    let mut list = Vec::new();
    for version in chosen {
        let log = with_greatest(
            version,
            VrfRule::Hashed {
                seed: u64::from(version),
            },
        );
        let count = binary_ladder(version).len();
        let search = question(&log, b"hub", 0, &[], 5);
        let name = format!("search that finds {version} by {count} versions");
        list.push(accepted(name, &log, Kind::Search, search));
        for kind in [Kind::Search, Kind::Monitor] {
            let question = question(&log, b"hub", 3, &[(2, version)], 5);
            let name = format!("{} with a pair of {version}", kind.word());
            list.push(accepted(name, &log, kind, question));
        }
    }
    list
}

/// Labels and values of lengths around those of hash blocks and at their limits.
fn texts() -> Vec<Case> {
    let mut list = Vec::new();
    for label in [0, 1, 34, 35, 42, 43, 254, 255] {
        for value in [0, 1, 33, 34, 42, 43, 64, 1023, 1024] {
            list.push(text_lengths(label, value, 0, &[]));
            list.push(text_lengths(label, value, 1, &[(0, 0)]));
        }
    }
    list
}

/// A search that needs all the room it is lent.
pub fn text_lengths(label: usize, value: usize, old_size: u64, pairs: &[(u64, u32)]) -> Case {
    let mut plan = Plan::new(&vec![b'l'; label], 2, &[(0, 0), (1, 1)]);
    plan.others = 0;
    plan.contents = ContentRule {
        seed: 4,
        shortest: value,
        longest: value,
    };
    let log = plan.log();
    let question = question(&log, &plan.label, old_size, pairs, 2);
    let name = format!("label of {label} and value of {value} bytes after {old_size}");
    let mut case = accepted(name, &log, Kind::Search, question);
    case.room = value;
    case
}

/// A value of 1,025 bytes in a log that is right in everything else.
fn long_value() -> Case {
    let contents = ContentRule {
        seed: 4,
        shortest: limits::VALUE + 1,
        longest: limits::VALUE + 1,
    };
    let log = Plan {
        contents,
        ..Plan::new(b"long", 2, &[(0, 0)])
    }
    .log();
    let answer = log
        .search(&question(&log, b"long", 0, &[], 2))
        .expect("version 0 is there");
    Case::of(
        "value of 1,025 bytes and its commitment",
        5,
        &answer.exchange,
    )
}

/// All entries at time 0, all at the last time, and from one to the other.
fn times() -> Vec<Case> {
    let mut list = Vec::new();
    let plans = [
        ("0", 0, 0),
        ("2^64 - 1", u64::MAX, 0),
        ("0 to 2^64 - 1", 0, u64::MAX / 5),
    ];
    for (name, first_time, pace) in plans {
        let plan = Plan {
            first_time,
            pace,
            ..Plan::new(b"clock", 6, &[(0, 0), (4, 1)])
        };
        let log = plan.log();
        for old_size in [0, 3, 6] {
            let pairs: &[(u64, u32)] = if old_size > 0 { &[(0, 0)] } else { &[] };
            for kind in [Kind::Search, Kind::Monitor] {
                let question = question(&log, b"clock", old_size, pairs, 6);
                let name = format!("{} after {old_size} with times {name}", kind.word());
                list.push(accepted(name, &log, kind, question));
            }
        }
    }
    list
}

/// Lookups of 0, 1 and up to 255 siblings.
fn depths() -> Vec<Case> {
    let mut list = Vec::new();
    for bits in [0, 1, 7, 8, 100, 200, 222, 223] {
        let log = with_greatest(5, VrfRule::Shared { seed: 8, bits });
        let question = question(&log, b"hub", 0, &[], 5);
        let name = format!("search under {bits} common bits");
        list.push(accepted(name, &log, Kind::Search, question));
    }
    let versions = binary_ladder(5);
    let common = [0xc3; limits::DIGEST];
    for bits in [252, 253] {
        let outputs = outputs_sharing(&common, bits, 8);
        let vrf = VrfRule::table(b"hub", &versions, &outputs, VrfRule::Hashed { seed: 2 });
        let log = with_greatest(5, vrf);
        let name = format!("search under {bits} common bits and three more");
        let question = question(&log, b"hub", 0, &[], 5);
        let answer = log.search(&question).expect("version 5 is there");
        list.push(super::case(name, &answer));
    }
    let outputs: Vec<_> = outputs_leaving(&common, 255)
        .into_iter()
        .skip(249)
        .collect();
    let vrf = VrfRule::table(b"hub", &versions, &outputs, VrfRule::Hashed { seed: 2 });
    let log = with_greatest(5, vrf);
    let question = question(&log, b"hub", 0, &[], 5);
    list.push(accepted(
        "search that leaves the way at bits 249 to 254",
        &log,
        Kind::Search,
        question,
    ));
    list
}

/// Entries without any leaf, and entries whose only leaf is another label's.
fn empty_trees() -> Vec<Case> {
    let mut log = Log::new(VrfRule::Hashed { seed: 6 });
    log.append(1, &[]);
    log.append(2, &[]);
    log.append(3, &RULE.additions(b"other", &[0]));
    log.append(4, &[]);
    log.append(5, &RULE.additions(b"label", &[0]));
    log.append(6, &RULE.additions(b"label", &[1]));
    let mut list = Vec::new();
    for size in [5, 6] {
        for old_size in [0, 1, 2, 4] {
            let question = question(&log, b"label", old_size, &[], size);
            let name = format!("search of {size} after {old_size} over empty trees");
            list.push(accepted(name, &log, Kind::Search, question));
        }
    }
    for size in 1..=4 {
        let question = question(&log, b"label", 0, &[], size);
        list.push(accepted(
            format!("monitor of {size} empty trees"),
            &log,
            Kind::Monitor,
            question,
        ));
    }
    list
}

/// Keys of any length, a lifetime, bounds of 0 and without end.
fn settings() -> Vec<Case> {
    let log = Plan::new(b"set", 3, &[(0, 0), (2, 1)]).log();
    let mut list = Vec::new();
    for (key, bound, lifetime) in [
        (0, 0, None),
        (1, 1, Some(0)),
        (32, u64::MAX, Some(u64::MAX)),
        (1000, 86_400_000, None),
        (1004, 0, Some(1)),
    ] {
        let mut question = question(&log, b"set", 1, &[(0, 0)], 3);
        let settings = &mut question.settings;
        settings.signature_key = vec![1; key];
        settings.vrf_key = vec![2; key];
        settings.max_ahead = bound;
        settings.max_behind = bound;
        settings.monitoring_window = bound;
        settings.maximum_lifetime = lifetime;
        let name = format!("search with settings of {} bytes", settings.bytes().len());
        list.push(accepted(name, &log, Kind::Search, question));
    }
    list
}
