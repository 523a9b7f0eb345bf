//! The log tree (001 10.8, shaped as in 004 7.3), and which of its nodes a response gives
//! (paper 01, Trees). Equal subtrees of a run of equal entries are one node in memory, so a run
//! costs a node for each level and not one for each entry.

use crate::hashes;
use crate::model::Digest;
use crate::prefix_tree::PrefixTree;
use std::ops::Range;
use std::sync::Arc;

/// An entry of the log with its prefix tree (001 10.8); the root is the tree's unless it is forged.
#[derive(Clone, Debug)]
pub struct LogEntry {
    pub time: u64,
    pub prefix_root: Digest,
    pub prefix_tree: PrefixTree,
}

impl LogEntry {
    /// The entry of a prefix tree at a time (001 10.8).
    pub fn new(time: u64, prefix_tree: PrefixTree) -> LogEntry {
        LogEntry {
            time,
            prefix_root: prefix_tree.root(),
            prefix_tree,
        }
    }
}

/// A balanced subtree with its value (001 10.8).
#[derive(Debug)]
struct Subtree {
    value: Digest,
    kind: SubtreeKind,
}

#[derive(Debug)]
enum SubtreeKind {
    Leaf(LogEntry),
    Parent {
        width: u64,
        left: Arc<Subtree>,
        right: Arc<Subtree>,
    },
}

impl Subtree {
    /// The subtree of one entry (001 10.8).
    fn leaf(entry: LogEntry) -> Arc<Subtree> {
        Arc::new(Subtree {
            value: hashes::log_leaf(entry.time, &entry.prefix_root),
            kind: SubtreeKind::Leaf(entry),
        })
    }

    /// The subtree of two of one width (001 10.8).
    fn parent(left: Arc<Subtree>, right: Arc<Subtree>) -> Arc<Subtree> {
        let leaf = left.width() == 1;
        Arc::new(Subtree {
            value: hashes::log_parent((leaf, &left.value), (leaf, &right.value)),
            kind: SubtreeKind::Parent {
                width: 2 * left.width(),
                left,
                right,
            },
        })
    }

    /// The number of entries under it.
    fn width(&self) -> u64 {
        match self.kind {
            SubtreeKind::Leaf(_) => 1,
            SubtreeKind::Parent { width, .. } => width,
        }
    }
}

/// The subtree with another entry at a place within it.
fn with_entry(subtree: &Subtree, place: u64, entry: LogEntry) -> Arc<Subtree> {
    match &subtree.kind {
        SubtreeKind::Leaf(_) => Subtree::leaf(entry),
        SubtreeKind::Parent { left, right, .. } if place < left.width() => {
            Subtree::parent(with_entry(left, place, entry), right.clone())
        }
        SubtreeKind::Parent { left, right, .. } => {
            Subtree::parent(left.clone(), with_entry(right, place - left.width(), entry))
        }
    }
}

/// The entries as a log tree that grows; a clone shares its subtrees.
#[derive(Clone, Debug, Default)]
pub(crate) struct LogTree {
    size: u64,
    /// The full subtrees, left to right (001 3.2).
    full: Vec<Arc<Subtree>>,
}

impl LogTree {
    /// The number of entries.
    pub fn size(&self) -> u64 {
        self.size
    }

    /// Appends so many equal entries, a subtree as wide as fits at a time (001 3.2).
    pub fn append(&mut self, entry: LogEntry, count: u64) {
        let end = self.size + count;
        let mut uniform = vec![Subtree::leaf(entry)];
        while self.size < end {
            let level = self.size.trailing_zeros().min((end - self.size).ilog2()) as usize;
            while uniform.len() <= level {
                let half = uniform[uniform.len() - 1].clone();
                uniform.push(Subtree::parent(half.clone(), half));
            }
            self.push(uniform[level].clone());
        }
    }

    /// Appends a subtree that is full at its place, and joins full subtrees of one width (001 3.2).
    fn push(&mut self, subtree: Arc<Subtree>) {
        self.size += subtree.width();
        let mut right = subtree;
        while let Some(left) = self.full.pop_if(|left| left.width() == right.width()) {
            right = Subtree::parent(left, right);
        }
        self.full.push(right);
    }

    /// The balanced subtree that covers a range of entries.
    fn subtree(&self, range: &Range<u64>) -> &Arc<Subtree> {
        let places = full_subtrees(self.size);
        let index = places.partition_point(|place| place.end <= range.start);
        let mut start = places[index].start;
        let mut subtree = &self.full[index];
        while let SubtreeKind::Parent { width, left, right } = &subtree.kind {
            if *width == range.end - range.start {
                break;
            }
            let middle = start + width / 2;
            if range.start < middle {
                subtree = left;
            } else {
                (subtree, start) = (right, middle);
            }
        }
        subtree
    }

    /// The entry at a position below the size.
    pub fn entry(&self, position: u64) -> &LogEntry {
        match &self.subtree(&(position..position + 1)).kind {
            SubtreeKind::Leaf(entry) => entry,
            SubtreeKind::Parent { .. } => unreachable!("a range of one entry"),
        }
    }

    /// The value of a range that is a subtree of some size of the log (001 10.8).
    pub fn value(&self, range: Range<u64>) -> Digest {
        let width = range.end - range.start;
        if width.is_power_of_two() {
            return self.subtree(&range).value;
        }
        let middle = split(&range);
        let left = self.value(range.start..middle);
        let right = self.value(middle..range.end);
        hashes::log_parent(
            (middle - range.start == 1, &left),
            (range.end - middle == 1, &right),
        )
    }

    /// The tree of the first entries.
    pub fn truncated(&self, size: u64) -> LogTree {
        let full = full_subtrees(size)
            .iter()
            .map(|range| self.subtree(range).clone())
            .collect();
        LogTree { size, full }
    }

    /// The tree with another entry at a position below the size.
    pub fn with_entry(&self, position: u64, entry: LogEntry) -> LogTree {
        let places = full_subtrees(self.size);
        let index = places.partition_point(|place| place.end <= position);
        let mut tree = self.clone();
        tree.full[index] = with_entry(&self.full[index], position - places[index].start, entry);
        tree
    }
}

/// Where a range of more than one entry splits: after the largest power of two below its width
/// (paper 01, Trees).
fn split(range: &Range<u64>) -> u64 {
    range.start + (1 << (range.end - range.start - 1).ilog2())
}

/// The ranges of the full subtrees of a tree, left to right (001 3.2).
pub fn full_subtrees(size: u64) -> Vec<Range<u64>> {
    let mut ranges = Vec::new();
    let mut start = 0;
    while start < size {
        let end = start + (1 << (size - start).ilog2());
        ranges.push(start..end);
        start = end;
    }
    ranges
}

/// The ranges that a response gives nodes for, left to right, by the new size, the old size and the
/// positions shown, which rise (paper 01, Trees).
pub fn needed_nodes(size: u64, old_size: u64, shown: &[u64]) -> Vec<Range<u64>> {
    let mut needed = Vec::new();
    if size > 0 {
        collect_needed(0..size, &full_subtrees(old_size), shown, &mut needed);
    }
    needed
}

/// Appends the ranges that nodes are needed for within a range (paper 01, Trees).
fn collect_needed(
    range: Range<u64>,
    retained: &[Range<u64>],
    shown: &[u64],
    needed: &mut Vec<Range<u64>>,
) {
    let shows = shown.iter().any(|position| range.contains(position));
    let holds = |kept: &Range<u64>| range.start <= kept.start && kept.end <= range.end;
    if shows && range.end - range.start == 1 || !shows && retained.contains(&range) {
        return;
    }
    if !shows && !retained.iter().any(holds) {
        needed.push(range);
        return;
    }
    let middle = split(&range);
    collect_needed(range.start..middle, retained, shown, needed);
    collect_needed(middle..range.end, retained, shown, needed);
}
