//! Number 13 by its definition: every choice of the versions that the frontier's trees have and of
//! the lookups shown (paper 01, Search). All paths are true, so only whether ladders are complete
//! or end early decides.

use crate::base::question;
use crate::case::Case;
use crate::making::looked_up;
use honest_log::ladder::binary_ladder;
use honest_log::model::{Digest, Lookup, LookupResult};
use honest_log::search_tree::frontier;
use honest_log::{ContentRule, Log, LogEntry, PrefixTree, Random, VrfRule};

const LABEL: &[u8] = b"gust";

/// What an entry of the frontier has and shows.
#[derive(Clone, Debug)]
pub struct Shown {
    /// The versions in its tree.
    pub present: Vec<u32>,
    /// How many lookups it shows; by itself the log shows them up to the first missing version that
    /// is not above the target.
    pub lookups: Option<usize>,
}

/// How an entry's lookups end.
#[derive(Clone, Copy, PartialEq, Eq)]
enum Ladder {
    Complete,
    EndsEarly,
    Neither,
}

fn ladder_of(target: u32, lookups: &[Lookup]) -> Ladder {
    let fits =
        |lookup: &Lookup| (lookup.version <= target) == (lookup.result == LookupResult::Inclusion);
    match lookups {
        _ if lookups.iter().all(fits) => {
            let whole = lookups.len() == binary_ladder(target).len();
            if whole {
                Ladder::Complete
            } else {
                Ladder::Neither
            }
        }
        [earlier @ .., last] if last.version <= target && earlier.iter().all(fits) => {
            Ladder::EndsEarly
        }
        _ => Ladder::Neither,
    }
}

/// Early ends come first, then complete ladders, of which the last is one.
fn agrees(ladders: &[Ladder]) -> bool {
    let early = ladders
        .iter()
        .take_while(|ladder| **ladder == Ladder::EndsEarly)
        .count();
    early < ladders.len()
        && ladders[early..]
            .iter()
            .all(|ladder| *ladder == Ladder::Complete)
}

/// The log whose frontier has these versions; the entries between are like the next one of the
/// frontier.
fn log(target: u32, size: u64, shown: &[Shown]) -> Log {
    let rule = ContentRule {
        seed: 2,
        shortest: 1,
        longest: 3,
    };
    let mut log = Log::new(VrfRule::Hashed { seed: 12 });
    let other = log.set_contents(&rule.addition(b"calm", 0));
    let mut leaf = |version: u32| log.set_contents(&rule.addition(LABEL, version));
    let trees: Vec<PrefixTree> = shown
        .iter()
        .map(|entry| {
            let mut leaves: Vec<(Digest, Digest)> =
                entry.present.iter().map(|version| leaf(*version)).collect();
            leaves.push(other);
            PrefixTree::new().with(&leaves)
        })
        .collect();
    leaf(target);
    for (position, tree) in frontier(size).into_iter().zip(trees) {
        let count = position + 1 - log.size();
        log.append_entries(LogEntry::new(position, tree), count);
    }
    log
}

/// The lookups of a beginning of the ladder in an entry's tree.
fn beginning(log: &Log, target: u32, position: u64, count: usize) -> Vec<Lookup> {
    let ladder = binary_ladder(target);
    let look_up = |version: &u32| {
        let output = log.output(LABEL, *version);
        let (result, siblings) = log.entry(position).prefix_tree.lookup(&output);
        looked_up(*version, result, siblings)
    };
    ladder[..count.clamp(1, ladder.len())]
        .iter()
        .map(look_up)
        .collect()
}

/// A search that finds the target in such a log, by a new checker.
pub fn case(target: u32, size: u64, shown: &[Shown]) -> Case {
    let log = log(target, size, shown);
    let question = question(&log, LABEL, 0, &[], size);
    let answer = log
        .search_target(&question, target)
        .expect("the size is there");
    let mut exchange = answer.exchange;
    for (entry, shown) in exchange.response.entries.iter_mut().zip(shown) {
        if let Some(count) = shown.lookups {
            entry.lookups = beginning(&log, target, entry.position, count);
        }
    }
    let entries = exchange.response.entries.iter();
    let ladders: Vec<Ladder> = entries
        .map(|entry| ladder_of(target, &entry.lookups))
        .collect();
    let number = if agrees(&ladders) { 0 } else { 13 };
    let name = format!("{target} found in {size} entries with {}", told(shown));
    Case::of(name, number, &exchange)
}

fn told(shown: &[Shown]) -> String {
    let one = |entry: &Shown| match entry.lookups {
        None => format!("{:?}", entry.present),
        Some(count) => format!("{:?} in {count} lookups", entry.present),
    };
    shown.iter().map(one).collect::<Vec<_>>().join(", ")
}

/// The versions of a ladder that a number's bits choose.
fn chosen(ladder: &[u32], bits: u64) -> Vec<u32> {
    let taken = |at: &usize| bits >> at & 1 == 1;
    (0..ladder.len())
        .filter(taken)
        .map(|at| ladder[at])
        .collect()
}

/// All choices for one entry with any number of lookups, and for two entries as the log shows them.
pub fn fixed_cases() -> Vec<Case> {
    let mut list = Vec::new();
    for target in [0, 1, 2] {
        let ladder = binary_ladder(target);
        let choices: Vec<Vec<u32>> = (0..1 << ladder.len())
            .map(|bits| chosen(&ladder, bits))
            .collect();
        for present in &choices {
            for count in 1..=ladder.len() {
                list.push(case(target, 1, &[shown(present, Some(count))]));
            }
            for other in &choices {
                list.push(case(target, 3, &[shown(present, None), shown(other, None)]));
            }
        }
    }
    list
}

fn shown(present: &[u32], lookups: Option<usize>) -> Shown {
    Shown {
        present: present.to_vec(),
        lookups,
    }
}

/// A random log whose frontier mostly looks as it should.
pub fn random(random: &mut Random) -> Case {
    let target = random.below(9) as u32;
    let size = random.between(1, 31);
    let ladder = binary_ladder(target);
    let entries = size.count_ones() as u64;
    let first_complete = random.below(entries);
    let shown: Vec<Shown> = (0..entries)
        .map(|at| {
            let mut present = ladder.clone();
            present.retain(|version| *version <= target);
            if at < first_complete {
                present.truncate(random.below(present.len() as u64) as usize);
            }
            if random.one_in(4) {
                present = chosen(&ladder, random.next());
            }
            let lookups = random
                .one_in(8)
                .then(|| random.between(1, ladder.len() as u64) as usize);
            Shown { present, lookups }
        })
        .collect();
    case(target, size, &shown)
}
