//! The log: its entries, its labels, and its history changed or continued otherwise.

use crate::contents::{Addition, Contents, OPENING_LENGTH};
use crate::log_tree::{full_subtrees, LogEntry, LogTree};
use crate::model::{Digest, Settings, State};
use crate::prefix_tree::PrefixTree;
use crate::vrf::VrfRule;
use std::collections::BTreeMap;
use std::ops::RangeInclusive;

/// A log; a clone shares what the two have in common.
#[derive(Clone, Debug)]
pub struct Log {
    vrf: VrfRule,
    tree: LogTree,
    labels: BTreeMap<Vec<u8>, BTreeMap<u32, Version>>,
}

/// What the log knows of a version, worked out once.
#[derive(Clone, Debug)]
struct Version {
    contents: Contents,
    commitment: Digest,
    output: Digest,
}

/// Growing.
impl Log {
    /// A log without entries.
    pub fn new(vrf: VrfRule) -> Log {
        Log {
            vrf,
            tree: LogTree::default(),
            labels: BTreeMap::new(),
        }
    }

    /// Appends an entry that adds versions, or none, to the newest prefix tree; gives its position.
    pub fn append(&mut self, time: u64, additions: &[Addition]) -> u64 {
        self.append_run(time, additions, 1)
    }

    /// Appends an entry that adds versions and then equal ones, so many in all; gives the first
    /// position.
    pub fn append_run(&mut self, time: u64, additions: &[Addition], count: u64) -> u64 {
        let leaves: Vec<(Digest, Digest)> = additions
            .iter()
            .map(|addition| self.set_contents(addition))
            .collect();
        let prefix_tree = self.newest_prefix_tree().with(&leaves);
        self.append_entries(LogEntry::new(time, prefix_tree), count)
    }

    /// Appends an entry of any prefix tree so many times; gives the first position.
    pub fn append_entries(&mut self, entry: LogEntry, count: u64) -> u64 {
        let position = self.size();
        self.tree.append(entry, count);
        position
    }

    /// Sets what a version holds without adding it to a tree; gives the VRF output and the
    /// commitment that its leaf would have (001 10.9).
    pub fn set_contents(&mut self, addition: &Addition) -> (Digest, Digest) {
        let output = self.vrf.output(&addition.label, addition.version);
        let commitment = addition.contents.commitment(&addition.label);
        let contents = addition.contents.clone();
        let version = Version {
            contents,
            commitment,
            output,
        };
        let versions = self.labels.entry(addition.label.clone()).or_default();
        versions.insert(addition.version, version);
        (output, commitment)
    }
}

/// Looking at it.
impl Log {
    /// The number of entries.
    pub fn size(&self) -> u64 {
        self.tree.size()
    }

    /// The entry at a position below the size.
    pub fn entry(&self, position: u64) -> &LogEntry {
        self.tree.entry(position)
    }

    /// The prefix tree of the last entry, empty if there is none.
    pub fn newest_prefix_tree(&self) -> PrefixTree {
        match self.size() {
            0 => PrefixTree::new(),
            size => self.entry(size - 1).prefix_tree.clone(),
        }
    }

    /// The VRF output of a version of a label, whether or not it was ever added.
    pub fn output(&self, label: &[u8], version: u32) -> Digest {
        match self.version(label, version) {
            Some(version) => version.output,
            None => self.vrf.output(label, version),
        }
    }

    /// What a version holds; no value and a zero opening if that was never set.
    pub fn contents(&self, label: &[u8], version: u32) -> Contents {
        match self.version(label, version) {
            Some(version) => version.contents.clone(),
            None => Contents {
                value: Vec::new(),
                opening: [0; OPENING_LENGTH],
            },
        }
    }

    /// The commitment to what a version holds (001 10.6).
    pub fn commitment(&self, label: &[u8], version: u32) -> Digest {
        match self.version(label, version) {
            Some(version) => version.commitment,
            None => self.contents(label, version).commitment(label),
        }
    }

    /// Whether the leaf of a version is in the tree of an entry.
    pub fn has_version(&self, label: &[u8], version: u32, position: u64) -> bool {
        let output = self.output(label, version);
        self.entry(position)
            .prefix_tree
            .commitment(&output)
            .is_some()
    }

    /// The greatest version of a label in the tree of the last of so many entries.
    pub fn greatest_version(&self, label: &[u8], size: u64) -> Option<u32> {
        let prefix_tree = &self.entry(size.checked_sub(1)?).prefix_tree;
        let there = |version: &Version| prefix_tree.commitment(&version.output).is_some();
        let mut versions = self.labels.get(label)?.iter().rev();
        versions
            .find(|(_, version)| there(version))
            .map(|(&number, _)| number)
    }

    /// The root of the log tree of the first entries, of which there is at least one (001 10.8).
    pub fn root(&self, size: u64) -> Digest {
        self.tree.value(0..size)
    }

    /// The value of a subtree of the log tree at some size, such as a node of a response
    /// (001 10.8).
    pub fn subtree_value(&self, range: std::ops::Range<u64>) -> Digest {
        self.tree.value(range)
    }

    /// The values of the full subtrees of the first entries, left to right (001 3.2).
    pub fn full_subtree_values(&self, size: u64) -> Vec<Digest> {
        full_subtrees(size)
            .into_iter()
            .map(|range| self.tree.value(range))
            .collect()
    }

    /// The state of a checker that has seen the first entries and has this map (paper 01, What a
    /// call is given).
    pub fn state(&self, label: &[u8], size: u64, map: &[(u64, u32)]) -> State {
        State {
            label: label.to_vec(),
            size,
            time: size.checked_sub(1).map_or(0, |last| self.entry(last).time),
            values: self.full_subtree_values(size),
            pairs: map.to_vec(),
        }
    }

    /// The clocks at which the last of so many entries is neither too far ahead nor too far behind
    /// (paper 01, number 11).
    pub fn clocks(&self, size: u64, settings: &Settings) -> RangeInclusive<u64> {
        let time = self.entry(size - 1).time;
        time.saturating_sub(settings.max_ahead)..=time.saturating_add(settings.max_behind)
    }

    /// What is known of a version, if it was ever set.
    fn version(&self, label: &[u8], version: u32) -> Option<&Version> {
        self.labels.get(label)?.get(&version)
    }
}

/// Forged and forked histories: other logs, this one stays as it is.
impl Log {
    /// The log as it was at an earlier size, to be continued otherwise.
    pub fn truncated(&self, size: u64) -> Log {
        Log {
            tree: self.tree.truncated(size),
            ..self.clone()
        }
    }

    /// The log with another entry at a position.
    pub fn with_entry(&self, position: u64, entry: LogEntry) -> Log {
        Log {
            tree: self.tree.with_entry(position, entry),
            ..self.clone()
        }
    }

    /// The log with another time at a position.
    pub fn with_time(&self, position: u64, time: u64) -> Log {
        let entry = self.entry(position).clone();
        self.with_entry(position, LogEntry { time, ..entry })
    }

    /// The log with another prefix tree, and so another prefix root, at a position.
    pub fn with_prefix_tree(&self, position: u64, prefix_tree: PrefixTree) -> Log {
        self.with_entry(
            position,
            LogEntry::new(self.entry(position).time, prefix_tree),
        )
    }

    /// The log with another prefix root at a position, to which no lookup leads.
    pub fn with_prefix_root(&self, position: u64, prefix_root: Digest) -> Log {
        let entry = self.entry(position).clone();
        let entry = LogEntry {
            prefix_root,
            ..entry
        };
        self.with_entry(position, entry)
    }
}
