//! Number 13: ladders that are neither complete nor ended early by a missing version, in the wrong
//! order, or contradicted; monitoring that misses a version (paper 01, Search and Monitoring). The
//! logs really are so.

use super::{Damage, Damages};
use crate::base::Base;
use crate::case::Case;
use crate::limits;
use honest_log::ladder::binary_ladder;
use honest_log::model::{Entry, Kind, LookupResult, Target};
use honest_log::PrefixTree;

pub fn damages(base: &Base) -> Vec<Damage> {
    let Some(target) = &base.exchange.response.target else {
        return Vec::new();
    };
    let mut list = Vec::new();
    for (at, entry) in base.exchange.response.entries.iter().enumerate() {
        list.extend(cut(at, entry));
        list.extend(continued(base, target, at, entry));
        list.extend(made_up(target, at, entry));
    }
    list
}

/// Lookups that stop although nothing is missing yet.
fn cut(at: usize, entry: &Entry) -> Vec<Damage> {
    (1..entry.lookups.len())
        .map(|count| {
            let name = format!("ladder at {} ended after {count}", entry.position);
            Damage::on_exchange(13, name, move |exchange| {
                exchange.response.entries[at].lookups.truncate(count)
            })
        })
        .collect()
}

/// Lookups that go on after a missing version.
fn continued(base: &Base, target: &Target, at: usize, entry: &Entry) -> Vec<Damage> {
    let ladder = binary_ladder(target.version);
    (entry.lookups.len()..ladder.len())
        .map(|last| {
            let more: Vec<_> = ladder[entry.lookups.len()..=last]
                .iter()
                .map(|version| base.lookup(entry.position, *version))
                .collect();
            let name = format!("ladder at {} continued to {}", entry.position, ladder[last]);
            Damage::on_exchange(13, name, move |exchange| {
                exchange.response.entries[at]
                    .lookups
                    .extend(more.iter().cloned())
            })
        })
        .collect()
}

/// A version above the target shown as there, with a path that leads nowhere.
fn made_up(target: &Target, at: usize, entry: &Entry) -> Vec<Damage> {
    let mut list = Vec::new();
    for (which, lookup) in entry.lookups.iter().enumerate() {
        if lookup.version <= target.version {
            continue;
        }
        for siblings in [0, 1, limits::SIBLINGS] {
            let name = format!(
                "{} in at {} with {siblings} made-up siblings",
                lookup.version, entry.position
            );
            list.on_exchange(13, name, move |exchange| {
                let lookup = &mut exchange.response.entries[at].lookups[which];
                lookup.result = LookupResult::Inclusion;
                lookup.siblings = vec![[0x5c; limits::DIGEST]; siblings];
            });
        }
    }
    list
}

/// Logs in which a version is missing or one too many is there, at one shown entry.
pub fn cases(base: &Base) -> Vec<Case> {
    match (base.exchange.kind, &base.exchange.response.target) {
        (Kind::Search, Some(target)) => {
            let mut list = missing(base, target);
            list.extend(too_many(base, target));
            list.extend(other_targets(base, target));
            list
        }
        _ => missing_in_monitoring(base),
    }
}

/// The same question to the log with another prefix tree at an entry.
fn with_tree(
    base: &Base,
    name: String,
    number: u8,
    position: u64,
    tree: PrefixTree,
) -> Option<Case> {
    let log = base.log.with_prefix_tree(position, tree);
    let exchange = base.asked_of(&log)?;
    Some(Case::of(
        format!("{}: {name}", base.name),
        number,
        &exchange,
    ))
}

/// Whether all lookups of the ladder are shown and none up to the target is missing.
fn complete(target: &Target, entry: &Entry) -> bool {
    let missing = |lookup: &honest_log::model::Lookup| {
        lookup.version <= target.version && lookup.result != LookupResult::Inclusion
    };
    !entry.lookups.iter().any(missing)
}

/// A missing version ends the ladder early: right before the first complete entry, wrong after it
/// and at the end.
fn missing(base: &Base, target: &Target) -> Vec<Case> {
    let entries = &base.exchange.response.entries;
    let first_complete = entries
        .iter()
        .position(|entry| complete(target, entry))
        .unwrap_or(0);
    let mut list = Vec::new();
    for (at, entry) in entries.iter().enumerate() {
        let number = if at > first_complete || at + 1 == entries.len() {
            13
        } else {
            0
        };
        for lookup in entry
            .lookups
            .iter()
            .filter(|lookup| lookup.result == LookupResult::Inclusion)
        {
            let output = base.log.output(base.label(), lookup.version);
            let tree = base.log.entry(entry.position).prefix_tree.without(&output);
            let name = format!(
                "log without version {} at {}",
                lookup.version, entry.position
            );
            list.extend(with_tree(base, name, number, entry.position, tree));
        }
    }
    list
}

/// A version above the target is there: wrong wherever it is looked up.
fn too_many(base: &Base, target: &Target) -> Vec<Case> {
    let mut list = Vec::new();
    let mut versions = binary_ladder(target.version);
    versions.retain(|version| *version > target.version);
    let unseen = target.version.saturating_add(1_000);
    for entry in &base.exchange.response.entries {
        for version in versions.iter().chain([&unseen]) {
            let shown = entry
                .lookups
                .iter()
                .any(|lookup| lookup.version == *version);
            let output = base.log.output(base.label(), *version);
            let tree = base
                .log
                .entry(entry.position)
                .prefix_tree
                .with(&[(output, [0x5d; 32])]);
            let number = if shown { 13 } else { 0 };
            let name = format!("log with version {version} at {}", entry.position);
            list.extend(with_tree(base, name, number, entry.position, tree));
        }
    }
    list
}

/// Targets that are not the greatest version.
fn other_targets(base: &Base, target: &Target) -> Vec<Case> {
    let mut list = Vec::new();
    let above = [1, 2, 100].map(|more| target.version.saturating_add(more));
    let below = [target.version.saturating_sub(1), target.version / 2];
    let largest = base
        .exchange
        .state
        .pairs
        .iter()
        .map(|pair| pair.1)
        .max()
        .unwrap_or(0);
    for version in above.into_iter().chain(below) {
        if version == target.version || version > limits::VERSION {
            continue;
        }
        let number = if version < largest { 8 } else { 13 };
        let Ok(answer) = base.log.search_target(&base.question, version) else {
            continue;
        };
        let name = format!(
            "{}: target {version} where {} is the greatest",
            base.name, target.version
        );
        list.push(Case::of(name, number, &answer.exchange));
    }
    list
}

/// A monitored version that an entry no longer has.
fn missing_in_monitoring(base: &Base) -> Vec<Case> {
    let mut list = Vec::new();
    for entry in &base.exchange.response.entries {
        for lookup in &entry.lookups {
            let output = base.log.output(base.label(), lookup.version);
            let tree = base.log.entry(entry.position).prefix_tree.without(&output);
            let name = format!(
                "log that lost version {} at {}",
                lookup.version, entry.position
            );
            list.extend(with_tree(base, name, 13, entry.position, tree));
        }
    }
    list
}
