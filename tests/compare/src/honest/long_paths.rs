//! Monitoring of logs of up to 2^40 entries for many pairs with long right paths, after old sizes
//! of every kind (paper 01, Trees, and Monitoring).

use crate::base::{question, Base};
use crate::case::Case;
use crate::limits;
use honest_log::model::Kind;
use honest_log::{ContentRule, Log, Random, VrfRule};

const LABEL: &[u8] = b"gear";

const RULE: ContentRule = ContentRule {
    seed: 6,
    shortest: 1,
    longest: 8,
};

/// So many pairs show several hundred entries and leave room for some lookups at each.
const MANY: u64 = 12;

/// So many pairs all over a log leave room for one short lookup at each.
const MOST: u64 = 41;

pub fn cases() -> Vec<Case> {
    let log = log();
    let mut bases = Vec::new();
    for size in [limits::SIZE, limits::SIZE - 1] {
        for old_size in old_sizes(size) {
            bases.push(monitoring(&log, old_size, MANY, size));
        }
    }
    let all_pairs = limits::PAIRS as u64;
    bases.push(monitoring(&log, 1 << 20, all_pairs, limits::SIZE));
    let size = limits::SIZE - 2;
    bases.push(monitoring(&equal_entries(size), size, MOST, size));
    let accepted = |base: &Base| Case::of(&base.name, 0, &base.exchange);
    let mut list: Vec<Case> = bases.iter().map(accepted).collect();
    list.push(without_nodes());
    list
}

/// Some with fewer pairs: new entries only at the end, everywhere, and none.
pub fn bases() -> Vec<Base> {
    let log = log();
    let size = limits::SIZE;
    let sizes = [(size - 1, size), (size / 3, size), (size - 1, size - 1)];
    let monitored = sizes.map(|(old_size, size)| monitoring(&log, old_size, MANY / 2, size));
    monitored.into()
}

/// A log of 2^40 entries in runs of equal ones, each with more versions.
fn log() -> Log {
    let mut log = Log::new(VrfRule::Hashed { seed: 6 });
    let quarter = limits::SIZE / 4;
    let runs: [(u64, &[u32]); 4] = [
        (quarter, &[0]),
        (quarter + 12_345, &[1]),
        (quarter / 3, &[2, 3]),
        (limits::SIZE, &[4, 5]),
    ];
    for (number, (count, versions)) in runs.into_iter().enumerate() {
        let room = limits::SIZE - log.size();
        log.append_run(
            number as u64,
            &RULE.additions(LABEL, versions),
            count.min(room),
        );
    }
    log
}

/// Old sizes that stand in different ways to a size.
fn old_sizes(size: u64) -> Vec<u64> {
    let mut sizes = vec![
        1,
        1 << 20,
        size / 3,
        size / 2,
        size / 2 + 1,
        size / 4 * 3,
        size.saturating_sub(1 << 20),
        size - 1,
        size,
    ];
    sizes.retain(|old_size| (1..=size).contains(old_size));
    sizes
}

/// So many pairs all over the old entries, of any version there is.
fn monitoring(log: &Log, old_size: u64, count: u64, size: u64) -> Base {
    let position = |number| old_size / count * number + number * number;
    let positions = (0..count).map(position);
    let mut pairs = Vec::new();
    for position in positions.filter(|position| *position < old_size) {
        let greatest = log.greatest_version(LABEL, position + 1).unwrap_or(0);
        pairs.push((position, pairs.len() as u32 % (greatest + 1)));
    }
    let count = pairs.len();
    let name = format!("monitor of {size} after {old_size}, {count} long paths");
    let question = question(log, LABEL, old_size, &pairs, size);
    Base::new(&name, Kind::Monitor, log, question)
}

/// A log of equal entries.
fn equal_entries(size: u64) -> Log {
    let mut log = Log::new(VrfRule::Hashed { seed: 6 });
    log.append_run(1_000, &RULE.additions(LABEL, &[0]), size);
    log
}

/// 48 pairs whose paths share as little as can be: the most entries that may be asked for, for
/// whose nodes a response has no room.
fn without_nodes() -> Case {
    let log = equal_entries(limits::SIZE);
    let pairs: Vec<(u64, u32)> = (0..limits::PAIRS as u64)
        .map(|number| (limits::SIZE / 64 * number, 0))
        .collect();
    let question = question(&log, LABEL, log.size(), &pairs, log.size());
    let answer = log.monitor(&question).expect("the log has entries");
    let mut exchange = answer.exchange;
    exchange.response.nodes.clear();
    let count = exchange.response.entries.len();
    let name = format!("monitor of 48 long paths, {count} entries and no nodes");
    Case::of(name, 9, &exchange)
}

/// A random map of up to so many pairs over a log of random runs.
pub fn random(random: &mut Random, most: u64) -> Base {
    let size = match random.below(4) {
        0 => limits::SIZE,
        1 => limits::SIZE - 1,
        2 => (1 << random.between(10, 39)) + random.below(3) - 1,
        _ => random.between(1 << 10, limits::SIZE),
    };
    let mut log = Log::new(VrfRule::Hashed { seed: size });
    for version in 0..4 {
        let room = size - log.size();
        if room > 1 {
            let count = random.between(1, room - 1);
            log.append_run(log.size(), &RULE.additions(LABEL, &[version]), count);
        }
    }
    log.append_run(log.size(), &[], size - log.size());
    let old_size = match random.one_in(2) {
        true => *random.pick(&old_sizes(size)),
        false => random.between(1, size),
    };
    let pairs = random_pairs(random, &log, old_size, most);
    let count = pairs.len();
    let name = format!("monitor of {size} after {old_size}, {count} random long paths");
    let question = question(&log, LABEL, old_size, &pairs, size);
    Base::new(&name, Kind::Monitor, &log, question)
}

/// Pairs close to each other or far apart.
fn random_pairs(random: &mut Random, log: &Log, old_size: u64, most: u64) -> Vec<(u64, u32)> {
    let mut pairs = Vec::new();
    let mut from = 0;
    for _ in 0..random.between(1, most) {
        let position = match random.one_in(3) {
            true => from + random.below(4),
            false => random.between(from, old_size),
        };
        if position < old_size {
            let greatest = log.greatest_version(LABEL, position + 1).unwrap_or(0);
            pairs.push((position, random.between(0, u64::from(greatest)) as u32));
            from = position + 1;
        }
    }
    pairs
}
