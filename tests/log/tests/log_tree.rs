//! Values of the log tree against a recursion over the whole list of entries (001 10.8).

mod common;

use common::{varied_log, LABEL};
use honest_log::hashes::{log_leaf, log_parent};
use honest_log::log_tree::full_subtrees;
use honest_log::model::Digest;
use honest_log::{Log, LogEntry, PrefixTree, VrfRule};

/// The value of a list of leaves as 001 3.2 shapes it and 10.8 hashes it.
fn naive(leaves: &[Digest]) -> Digest {
    if let [leaf] = leaves {
        return *leaf;
    }
    let mut half = 1;
    while 2 * half < leaves.len() {
        half *= 2;
    }
    let (left, right) = leaves.split_at(half);
    log_parent(
        (left.len() == 1, &naive(left)),
        (right.len() == 1, &naive(right)),
    )
}

fn leaves(log: &Log) -> Vec<Digest> {
    (0..log.size())
        .map(|position| log.entry(position))
        .map(|entry| log_leaf(entry.time, &entry.prefix_root))
        .collect()
}

#[test]
fn values_at_all_moments() {
    let log = varied_log(1, 75, VrfRule::Hashed { seed: 1 });
    let leaves = leaves(&log);
    for size in 1..=log.size() {
        assert_eq!(log.root(size), naive(&leaves[..size as usize]), "{size}");
        let full: Vec<Digest> = full_subtrees(size)
            .into_iter()
            .map(|range| naive(&leaves[range.start as usize..range.end as usize]))
            .collect();
        assert_eq!(log.full_subtree_values(size), full, "{size}");
        assert_eq!(full.len() as u32, size.count_ones());
        let earlier = log.truncated(size);
        assert_eq!(earlier.size(), size);
        assert_eq!(earlier.root(size), log.root(size));
    }
}

#[test]
fn changed_history() {
    let log = varied_log(2, 45, VrfRule::Hashed { seed: 2 });
    for position in 0..log.size() {
        let time = log.entry(position).time;
        let changed = log.with_time(position, time + 1);
        assert_eq!(changed.entry(position).time, time + 1);
        assert_eq!(changed.root(45), naive(&leaves(&changed)));
        for size in 1..=45 {
            assert_eq!(changed.root(size) == log.root(size), size <= position);
        }
        assert_eq!(log.entry(position).time, time, "the log itself stays");
        let forged = log.with_prefix_root(position, [7; 32]);
        assert_eq!(forged.root(45), naive(&leaves(&forged)));
        let emptied = log.with_prefix_tree(position, PrefixTree::new());
        assert_eq!(emptied.entry(position).prefix_root, [0; 32]);
        assert_eq!(emptied.root(45), naive(&leaves(&emptied)));
    }
}

#[test]
fn forks() {
    let log = varied_log(3, 40, VrfRule::Hashed { seed: 3 });
    for size in 1..40 {
        let mut fork = log.truncated(size);
        let last = log.entry(size).clone();
        fork.append_entries(
            LogEntry {
                time: last.time + 9,
                ..last
            },
            3,
        );
        assert_eq!(fork.root(size), log.root(size));
        assert_ne!(fork.root(size + 1), log.root(size + 1));
        assert_eq!(fork.root(fork.size()), naive(&leaves(&fork)));
        let (first, second) = (fork.state(LABEL, size, &[]), log.state(LABEL, size, &[]));
        assert_eq!(first, second);
    }
}

#[test]
fn runs_are_their_entries() {
    for count in 1..80 {
        let mut runs = varied_log(4, 5, VrfRule::Hashed { seed: 4 });
        let mut single = runs.clone();
        let entry = LogEntry::new(1 << 60, runs.newest_prefix_tree());
        runs.append_entries(entry.clone(), count);
        for _ in 0..count {
            single.append_entries(entry.clone(), 1);
        }
        assert_eq!(runs.size(), single.size());
        for size in 1..=runs.size() {
            assert_eq!(runs.root(size), single.root(size));
            assert_eq!(runs.entry(size - 1).time, single.entry(size - 1).time);
        }
    }
}
