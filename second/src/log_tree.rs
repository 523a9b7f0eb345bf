//! The log tree: a left-balanced binary tree over the log's entries (001, 3.2 and 10.8).

use crate::sha256::sha256;
use crate::suite::{Hash, NH};

/// A subtree, by the entries it holds: from `start` on and below `end`, at least one.
#[derive(Clone, Copy, Debug, PartialEq, Eq)]
pub struct Subtree {
    pub start: u64,
    pub end: u64,
}

/// The head of a subtree: the entries under it and its value.
#[derive(Clone, Copy, Debug, PartialEq, Eq)]
pub struct Head {
    pub subtree: Subtree,
    pub value: Hash,
}

impl Subtree {
    /// How many entries the subtree holds.
    pub fn size(self) -> u64 {
        self.end - self.start
    }

    /// Says whether the subtree is a single entry.
    pub fn is_leaf(self) -> bool {
        self.size() == 1
    }

    /// Both children, the left one being as large a power of two as leaves something to the right.
    pub fn split(self) -> (Subtree, Subtree) {
        let (start, end) = (self.start, self.end);
        let middle = start + (1 << (self.size() - 1).checked_ilog2().unwrap_or(0));
        (
            Subtree { start, end: middle },
            Subtree { start: middle, end },
        )
    }
}

/// The full subtrees of a tree of this size, left to right: one for each one bit of the size
/// (001, 4.2).
pub fn full_subtrees(size: u64) -> Vec<Subtree> {
    let mut subtrees = Vec::with_capacity(size.count_ones() as usize);
    let mut start = 0;
    while let Some(exponent) = (size - start).checked_ilog2() {
        let end = start + (1 << exponent);
        subtrees.push(Subtree { start, end });
        start = end;
    }
    subtrees
}

/// The value of a leaf: the hash of its LogEntry (001, 10.8).
pub fn leaf_value(timestamp: u64, prefix_root: &Hash) -> Hash {
    let mut entry = [0; 8 + NH];
    entry[..8].copy_from_slice(&timestamp.to_be_bytes());
    entry[8..].copy_from_slice(prefix_root);
    sha256(&entry)
}

/// The byte that comes before a child's value: it tells leaves from parents (001, 10.8).
fn mark(child: &Head) -> u8 {
    if child.subtree.is_leaf() {
        0x00
    } else {
        0x01
    }
}

/// The parent of two neighbouring heads, whose value hashes both of theirs (001, 10.8).
pub fn parent(left: &Head, right: &Head) -> Head {
    let mut content = [0; 2 * (1 + NH)];
    let (left_content, right_content) = content.split_at_mut(1 + NH);
    left_content[0] = mark(left);
    left_content[1..].copy_from_slice(&left.value);
    right_content[0] = mark(right);
    right_content[1..].copy_from_slice(&right.value);
    Head {
        subtree: Subtree {
            start: left.subtree.start,
            end: right.subtree.end,
        },
        value: sha256(&content),
    }
}

/// The value of the root, from the heads of a tree's full subtrees; there is at least one.
pub fn root_value(full_subtrees: &[Head]) -> Option<Hash> {
    let (last, others) = full_subtrees.split_last()?;
    let root = others
        .iter()
        .rev()
        .fold(*last, |right, left| parent(left, &right));
    Some(root.value)
}

#[cfg(test)]
mod tests {
    use super::*;

    fn subtree(start: u64, end: u64) -> Subtree {
        Subtree { start, end }
    }

    #[test]
    fn splits() {
        let halves = |n: u64| subtree(0, n).split().0.end;
        let sizes: Vec<u64> = (2..=9).map(halves).collect();
        assert_eq!(sizes, [1, 2, 2, 4, 4, 4, 4, 8]);
        assert_eq!(subtree(8, 14).split(), (subtree(8, 12), subtree(12, 14)));
        assert_eq!(halves(1 << 40), 1 << 39);
        assert_eq!(halves((1 << 39) + 1), 1 << 39);
    }

    #[test]
    fn full() {
        assert_eq!(full_subtrees(0), []);
        assert_eq!(full_subtrees(1), [subtree(0, 1)]);
        assert_eq!(full_subtrees(10), [subtree(0, 8), subtree(8, 10)]);
        let seven = [subtree(0, 4), subtree(4, 6), subtree(6, 7)];
        assert_eq!(full_subtrees(7), seven);
        assert_eq!(full_subtrees(1 << 40), [subtree(0, 1 << 40)]);
        assert_eq!(full_subtrees((1 << 40) - 1).len(), 40);
    }

    // 001, 10.8, written out for one entry, and for trees of one, two and three.
    #[test]
    fn values() {
        let leaf =
            |time: u8, root: u8| sha256(&[&[0, 0, 0, 0, 0, 0, 0, time][..], &[root; 32]].concat());
        assert_eq!(leaf_value(5, &[7; 32]), leaf(5, 7));
        let head = |start, value| Head {
            subtree: subtree(start, start + 1),
            value,
        };
        let (a, b, c) = (leaf(1, 1), leaf(2, 2), leaf(3, 3));
        let ab = sha256(&[&[0][..], &a, &[0], &b].concat());
        let abc = sha256(&[&[1][..], &ab, &[0], &c].concat());
        let pair = parent(&head(0, a), &head(1, b));
        assert_eq!(pair.subtree, subtree(0, 2));
        assert_eq!(pair.value, ab);
        assert_eq!(root_value(&[head(0, a)]), Some(a));
        assert_eq!(root_value(&[pair]), Some(ab));
        assert_eq!(root_value(&[pair, head(2, c)]), Some(abc));
        assert_eq!(root_value(&[]), None);
    }

    // In a tree of 7 the parent of entries 4 to 6 is no full subtree: its mark is a parent's.
    #[test]
    fn marks_on_the_right_edge() {
        let heads: Vec<Head> = full_subtrees(7)
            .into_iter()
            .map(|subtree| Head {
                subtree,
                value: [subtree.start as u8; 32],
            })
            .collect();
        let right = sha256(&[&[1][..], &[4; 32], &[0], &[6; 32]].concat());
        let root = sha256(&[&[1][..], &[0; 32], &[1], &right].concat());
        assert_eq!(root_value(&heads), Some(root));
    }
}
