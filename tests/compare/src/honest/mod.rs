//! Honest calls: single ones at the ends of what is allowed, and chains in which each call gets the
//! state that the last one left. The log tells what it must be answered with.

use crate::base::{self, Base};
use crate::case::Case;
use honest_log::ladder::monitoring_ladder;
use honest_log::model::Kind;
use honest_log::{Answer, Log, Question};
use std::collections::BTreeSet;

pub mod chain;
pub mod extremes;
pub mod lengths;
pub mod long_paths;
pub mod many_versions;
pub mod maps;
pub mod odd_trees;
pub mod sizes;

/// The log's answer to a question, if it has one.
pub fn answer(log: &Log, kind: Kind, question: &Question) -> Option<Answer> {
    match kind {
        Kind::Search => log.search(question).ok(),
        Kind::Monitor => log.monitor(question).ok(),
    }
}

/// A call with the number the log expects for it.
pub fn case(name: impl Into<String>, answer: &Answer) -> Case {
    Case::of(name, answer.expected() as u8, &answer.exchange)
}

/// A call that must be accepted.
pub fn accepted(name: impl Into<String>, log: &Log, kind: Kind, question: Question) -> Case {
    let name = name.into();
    let base = Base::new(&name, kind, log, question);
    Case::of(name, 0, &base.exchange)
}

/// All versions that monitoring looks up for pairs of some versions, rising.
fn monitored_versions(versions: &[u32]) -> Vec<u32> {
    let ladders = versions.iter().map(|version| monitoring_ladder(*version));
    let all: BTreeSet<u32> = ladders.flatten().collect();
    all.into_iter().collect()
}

/// All single calls and some chains.
pub fn fixed() -> Vec<Case> {
    let mut list: Vec<Case> = base::fixed()
        .iter()
        .map(|base| Case::of(&base.name, 0, &base.exchange))
        .collect();
    list.extend(sizes::cases());
    list.extend(maps::cases());
    list.extend(long_paths::cases());
    list.extend(many_versions::cases());
    list.extend(extremes::cases());
    list.extend(odd_trees::cases());
    list.extend(lengths::cases());
    for seed in 0..24 {
        list.extend(chain::Chain::new(seed).take(12));
    }
    list
}
