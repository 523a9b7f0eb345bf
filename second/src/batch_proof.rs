//! The walk through the log tree that joins inclusion and consistency (paper 01, Trees; 001, 11.1
//! calls what it takes in a batch proof).
//!
//! The walk is over the full subtrees of the new tree, left to right. The last entry is always
//! shown, so a walk from the root would split all along the right edge and come to just these.

use crate::log_tree::{full_subtrees, parent, Head, Subtree};
use crate::refusal::Refusal;
use crate::suite::Hash;

/// Where the walk gets the value of a subtree from.
enum Source {
    /// It is a full subtree of the old tree and nothing under it is shown: its retained value.
    Retained(Hash),
    /// Nothing under it is shown and the old tree has no full subtree in it: the next node.
    Node,
    /// It is a shown entry.
    Leaf,
    /// It is worked out from its children.
    Children(Subtree, Subtree),
}

/// The heads of the old tree's full subtrees, which a state retains.
pub fn retained(size: u64, values: &[Hash]) -> Vec<Head> {
    let subtrees = full_subtrees(size).into_iter();
    subtrees
        .zip(values)
        .map(|(subtree, &value)| Head { subtree, value })
        .collect()
}

/// The first retained subtree that lies within a subtree, which may be that subtree itself.
fn retained_within(subtree: Subtree, retained: &[Head]) -> Option<&Head> {
    let index = retained.partition_point(|head| head.subtree.start < subtree.start);
    let first = retained.get(index)?;
    (first.subtree.end <= subtree.end).then_some(first)
}

/// The rule by which each subtree gets its value (paper 01, Trees).
fn source(subtree: Subtree, is_shown: bool, retained: &[Head]) -> Source {
    if !is_shown {
        match retained_within(subtree, retained) {
            None => return Source::Node,
            Some(head) if head.subtree == subtree => return Source::Retained(head.value),
            Some(_) => {}
        }
    } else if subtree.is_leaf() {
        return Source::Leaf;
    }
    let (left, right) = subtree.split();
    Source::Children(left, right)
}

/// How many nodes the walk takes in a tree of n entries, given the positions shown, which rise up
/// to the last.
pub fn nodes_needed(n: u64, shown: &[u64], retained: &[Head]) -> usize {
    let mut rest = shown;
    let mut needed = 0;
    for subtree in full_subtrees(n) {
        let under = rest.partition_point(|&position| position < subtree.end);
        needed += nodes_needed_under(subtree, &rest[..under], retained);
        rest = &rest[under..];
    }
    needed
}

/// How many nodes the walk takes in a subtree, given the positions shown under it.
fn nodes_needed_under(subtree: Subtree, shown: &[u64], retained: &[Head]) -> usize {
    match source(subtree, !shown.is_empty(), retained) {
        Source::Retained(_) | Source::Leaf => 0,
        Source::Node => 1,
        Source::Children(left, right) => {
            let (to_left, to_right) =
                shown.split_at(shown.partition_point(|&position| position < right.start));
            nodes_needed_under(left, to_left, retained)
                + nodes_needed_under(right, to_right, retained)
        }
    }
}

/// The heads of the new tree's full subtrees, given the leaves shown, which rise up to the last,
/// and as many nodes as are needed, refused if a retained value is not what is worked out.
pub fn heads(
    n: u64,
    shown: &[Head],
    retained: &[Head],
    nodes: &[Hash],
) -> Result<Vec<Head>, Refusal> {
    let (mut rest, mut nodes) = (shown, nodes);
    let subtrees = full_subtrees(n);
    let mut heads = Vec::with_capacity(subtrees.len());
    for subtree in subtrees {
        let under = rest.partition_point(|leaf| leaf.subtree.start < subtree.end);
        let (head, left_over) = head_of(subtree, &rest[..under], retained, nodes)?;
        heads.push(head);
        (rest, nodes) = (&rest[under..], left_over);
    }
    Ok(heads)
}

/// The head of a subtree, given the leaves shown under it and the nodes from its first on, with the
/// nodes left over.
fn head_of<'a>(
    subtree: Subtree,
    shown: &[Head],
    retained: &[Head],
    nodes: &'a [Hash],
) -> Result<(Head, &'a [Hash]), Refusal> {
    let (head, nodes) = match source(subtree, !shown.is_empty(), retained) {
        Source::Retained(value) => return Ok((Head { subtree, value }, nodes)),
        Source::Node => {
            let (&value, nodes) = nodes.split_first().ok_or(Refusal::Shape)?;
            return Ok((Head { subtree, value }, nodes));
        }
        Source::Leaf => (shown[0], nodes),
        Source::Children(left, right) => {
            let (to_left, to_right) =
                shown.split_at(shown.partition_point(|leaf| leaf.subtree.start < right.start));
            let (left, nodes) = head_of(left, to_left, retained, nodes)?;
            let (right, nodes) = head_of(right, to_right, retained, nodes)?;
            (parent(&left, &right), nodes)
        }
    };
    match retained_within(subtree, retained) {
        Some(known) if known.subtree == subtree && known.value != head.value => {
            Err(Refusal::FullSubtree)
        }
        _ => Ok((head, nodes)),
    }
}

#[cfg(test)]
mod tests {
    use super::*;
    use crate::log_tree::{leaf_value, root_value};
    use crate::search_tree::frontier;
    use crate::sha256::sha256;

    fn leaf(position: u64) -> Hash {
        leaf_value(position, &[position as u8; 32])
    }

    fn shown_leaf(position: u64) -> Head {
        Head {
            subtree: Subtree {
                start: position,
                end: position + 1,
            },
            value: leaf(position),
        }
    }

    // Where two or more entries part: before it is the largest power of two below their count.
    fn middle(start: u64, end: u64) -> u64 {
        let mut half = 1;
        while half * 2 < end - start {
            half *= 2;
        }
        start + half
    }

    // The value of the entries from `start` to below `end`, straight from 001, 10.8.
    fn value(start: u64, end: u64) -> Hash {
        if end - start == 1 {
            return leaf(start);
        }
        let middle = middle(start, end);
        let half = middle - start;
        let mark = |size: u64| [u8::from(size > 1)];
        let (left, right) = (value(start, middle), value(middle, end));
        sha256(&[&mark(half)[..], &left, &mark(end - middle), &right].concat())
    }

    // The ranges of a size's full subtrees, from its bits.
    fn ranges(size: u64) -> Vec<(u64, u64)> {
        let mut start = 0;
        let mut ranges = vec![];
        for bit in (0..64).rev().filter(|bit| size >> bit & 1 == 1) {
            ranges.push((start, start + (1 << bit)));
            start += 1 << bit;
        }
        ranges
    }

    // The nodes that the walk from the root asks for, by the words of paper 01, Trees.
    fn nodes(start: u64, end: u64, shown: &[u64], kept: &[(u64, u64)]) -> Vec<Hash> {
        let inside = |&&(a, b): &&(u64, u64)| start <= a && b <= end;
        if !shown.iter().any(|p| (start..end).contains(p)) {
            if kept.contains(&(start, end)) {
                return vec![];
            }
            if kept.iter().find(inside).is_none() {
                return vec![value(start, end)];
            }
        } else if end - start == 1 {
            return vec![];
        }
        let middle = middle(start, end);
        let mut list = nodes(start, middle, shown, kept);
        list.extend(nodes(middle, end, shown, kept));
        list
    }

    // Goes through a walk for one old size and one set of shown entries, and one changed value.
    fn check(n: u64, m: u64, shown: &[u64]) {
        let kept = ranges(m);
        let values: Vec<Hash> = kept.iter().map(|&(a, b)| value(a, b)).collect();
        let nodes = nodes(0, n, shown, &kept);
        let known = retained(m, &values);
        assert_eq!(nodes_needed(n, shown, &known), nodes.len());

        let leaves: Vec<Head> = shown.iter().map(|&p| shown_leaf(p)).collect();
        let found = heads(n, &leaves, &known, &nodes).unwrap();
        let expected: Vec<Hash> = ranges(n).iter().map(|&(a, b)| value(a, b)).collect();
        let found_values: Vec<Hash> = found.iter().map(|head| head.value).collect();
        assert_eq!(found_values, expected);
        assert_eq!(root_value(&found), Some(value(0, n)));

        // A wrong retained value is refused where something under it is shown; else the root moves.
        for (index, &(a, b)) in kept.iter().enumerate() {
            let mut wrong = values.clone();
            wrong[index][0] ^= 1;
            let found = heads(n, &leaves, &retained(m, &wrong), &nodes);
            if shown.iter().any(|p| (a..b).contains(p)) {
                assert_eq!(found, Err(Refusal::FullSubtree));
            } else {
                assert_ne!(root_value(&found.unwrap()), Some(value(0, n)));
            }
        }
    }

    #[test]
    fn frontiers_of_all_sizes() {
        for n in 1..=33 {
            for m in 0..=n {
                check(n, m, &frontier(n));
            }
        }
    }

    #[test]
    fn any_entries_shown() {
        let mut random = 1u64;
        for round in 0..3000 {
            random = random.wrapping_mul(6364136223846793005).wrapping_add(round);
            let n = 1 + (random >> 33) % 21;
            let m = (random >> 40) % (n + 1);
            let chosen = random >> 13;
            let shown: Vec<u64> = (0..n)
                .filter(|&p| p == n - 1 || chosen >> p & 1 == 1)
                .collect();
            check(n, m, &shown);
        }
    }

    // Paper 01, Worked examples.
    #[test]
    fn node_counts() {
        let count = |m: u64| {
            let values = vec![[0; 32]; m.count_ones() as usize];
            nodes_needed(14, &frontier(14), &retained(m, &values))
        };
        assert_eq!(count(0), 6);
        assert_eq!(count(10), 5);
    }

    // With an odd old size its last entry is a full subtree by itself, and is compared when shown.
    #[test]
    fn single_retained_entry() {
        let known = retained(1, &[leaf(0)]);
        assert!(heads(1, &[shown_leaf(0)], &known, &[]).is_ok());
        let wrong = retained(1, &[leaf(1)]);
        let refused = heads(1, &[shown_leaf(0)], &wrong, &[]);
        assert_eq!(refused, Err(Refusal::FullSubtree));
    }

    // The largest tree needs no more than its height in calls.
    #[test]
    fn largest_tree() {
        let n = 1 << 40;
        assert_eq!(nodes_needed(n, &frontier(n), &[]), 40);
        let known = retained(n - 1, &[[0; 32]; 40]);
        assert_eq!(nodes_needed(n, &frontier(n), &known), 0);
    }
}
