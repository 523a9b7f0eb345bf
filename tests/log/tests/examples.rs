//! The worked examples of paper 01, and the laws its sentences state of ladders and search trees.

use honest_log::ladder::{binary_ladder, monitoring_ladder};
use honest_log::log_tree::{full_subtrees, needed_nodes};
use honest_log::search_tree::{frontier, left, level, right, right_ancestors, root};

#[test]
fn ladders() {
    assert_eq!(binary_ladder(0), [0, 1]);
    assert_eq!(binary_ladder(1), [0, 1, 3, 2]);
    assert_eq!(binary_ladder(3), [0, 1, 3, 7, 5, 4]);
    assert_eq!(binary_ladder(5), [0, 1, 3, 7, 5, 6]);
    assert_eq!(monitoring_ladder(20), [0, 1, 3, 7, 15, 19, 20]);
    assert_eq!(binary_ladder(u32::MAX - 1).len(), 64);
}

#[test]
fn ladder_lengths() {
    for power in 0..32_u32 {
        let (low, high) = ((1_u64 << power) - 1, (2_u64 << power) - 2);
        for target in [low, high, (low + high) / 2] {
            let ladder = binary_ladder(target as u32);
            assert_eq!(ladder.len() as u32, 2 * power + 2, "{target}");
            assert!(ladder.contains(&(target as u32)));
            assert!(ladder.contains(&(target as u32 + 1)));
        }
    }
}

#[test]
fn frontiers() {
    assert_eq!(frontier(1), [0]);
    assert_eq!(frontier(13), [7, 11, 12]);
    assert_eq!(frontier(14), [7, 11, 13]);
    assert_eq!(frontier(50), [31, 47, 49]);
    assert_eq!(frontier(60), [31, 47, 55, 59]);
    let largest = 1 << 40;
    assert_eq!(frontier(largest), [largest - 1]);
    assert_eq!(frontier(largest - 1).len(), 40);
    for size in 1..300_u64 {
        assert_eq!(frontier(size).len() as u32, size.count_ones());
    }
}

#[test]
fn right_paths() {
    assert_eq!(right_ancestors(4, 14), [5, 7]);
    assert_eq!(right_ancestors(8, 14), [9, 11]);
    assert!(right_ancestors(13, 14).is_empty());
}

/// Every entry with its ancestors, by going through the whole tree from the root.
fn ancestors(entry: u64, size: u64, above: &[u64], found: &mut Vec<(u64, Vec<u64>)>) {
    found.push((entry, above.to_vec()));
    let above = [above, &[entry]].concat();
    if level(entry) > 0 {
        ancestors(left(entry), size, &above, found);
        let last_below = entry + (1 << level(entry)) - 1;
        if entry + 1 < size && last_below > entry {
            ancestors(right(entry, size), size, &above, found);
        }
    }
}

#[test]
fn right_paths_of_all_entries() {
    for size in 1..=70 {
        let mut found = Vec::new();
        ancestors(root(size), size, &[], &mut found);
        found.sort();
        assert_eq!(found.len() as u64, size);
        for (index, (entry, above)) in found.into_iter().enumerate() {
            assert_eq!(entry, index as u64);
            let mut greater: Vec<u64> = above.into_iter().filter(|a| *a > entry).collect();
            greater.sort();
            assert_eq!(right_ancestors(entry, size), greater);
            let end = greater.last().copied().unwrap_or(entry);
            let first = frontier(size).into_iter().find(|f| *f >= entry);
            assert_eq!(Some(end), first, "a right path ends on the frontier");
        }
    }
}

#[test]
fn numbers_of_nodes() {
    assert_eq!(needed_nodes(14, 0, &frontier(14)).len(), 6);
    assert_eq!(needed_nodes(14, 10, &frontier(14)).len(), 5);
    assert_eq!(full_subtrees(10), [0..8, 8..10]);
    assert_eq!(
        needed_nodes(14, 10, &frontier(14)),
        [0..4, 4..6, 6..7, 10..11, 12..13]
    );
    assert_eq!(
        needed_nodes(16, 10, &[15]),
        [10..12, 12..14, 14..15],
        "a part with a retained subtree splits"
    );
}
