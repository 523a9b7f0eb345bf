//! Prefix trees that share what they have in common (001 3.3 and 10.9).

use crate::hashes;
use crate::model::{Digest, LookupResult};
use crate::vrf::bit;
use std::collections::BTreeMap;
use std::sync::Arc;

/// A prefix tree; adding or removing gives another one and leaves this as it is (001 3.3).
#[derive(Clone, Debug, Default)]
pub struct PrefixTree {
    root: Place,
}

/// A place in the tree: empty, or a node that trees may share.
type Place = Option<Arc<Node>>;

/// VRF output and commitment.
type Leaf = (Digest, Digest);

#[derive(Debug)]
struct Node {
    value: Digest,
    kind: NodeKind,
}

#[derive(Debug)]
enum NodeKind {
    Leaf(Leaf),
    Parent { left: Place, right: Place },
}

impl PrefixTree {
    /// The tree without leaves (001 10.9).
    pub fn new() -> PrefixTree {
        PrefixTree::default()
    }

    /// The value of the root; 32 zero bytes if there is no leaf (001 10.9).
    pub fn root(&self) -> Digest {
        value(&self.root)
    }

    /// The tree with these leaves too, VRF output and commitment each; one whose output is already
    /// there takes its place (001 3.3).
    pub fn with(&self, leaves: &[(Digest, Digest)]) -> PrefixTree {
        let sorted: BTreeMap<Digest, Digest> = leaves.iter().copied().collect();
        let sorted: Vec<Leaf> = sorted.into_iter().collect();
        PrefixTree {
            root: add(&self.root, 0, &sorted),
        }
    }

    /// The tree without the leaf of an output, as if it had never been added.
    pub fn without(&self, output: &Digest) -> PrefixTree {
        PrefixTree {
            root: remove(&self.root, 0, output),
        }
    }

    /// The commitment in the leaf of an output, if there is one.
    pub fn commitment(&self, output: &Digest) -> Option<Digest> {
        let mut place = &self.root;
        let mut depth = 0;
        loop {
            match &place.as_ref()?.kind {
                NodeKind::Leaf(leaf) => return (leaf.0 == *output).then_some(leaf.1),
                NodeKind::Parent { left, right } => {
                    place = if bit(output, depth) { right } else { left };
                    depth += 1;
                }
            }
        }
    }

    /// Where the search for an output ends, and the siblings on the way from the root (001 3.3).
    pub fn lookup(&self, output: &Digest) -> (LookupResult, Vec<Digest>) {
        let mut siblings = Vec::new();
        let mut place = &self.root;
        while let Some(node) = place {
            match &node.kind {
                NodeKind::Leaf(leaf) => return (found(leaf, output), siblings),
                NodeKind::Parent { left, right } => {
                    let way = bit(output, siblings.len());
                    let (next, sibling) = if way { (right, left) } else { (left, right) };
                    siblings.push(value(sibling));
                    place = next;
                }
            }
        }
        (LookupResult::EmptyPlace, siblings)
    }

    /// The leaves, by rising output.
    pub fn leaves(&self) -> Vec<(Digest, Digest)> {
        let mut leaves = Vec::new();
        collect(&self.root, &mut leaves);
        leaves
    }
}

/// What the search for an output says of the leaf it ends at (paper 01, Trees).
fn found(leaf: &Leaf, output: &Digest) -> LookupResult {
    if leaf.0 == *output {
        return LookupResult::Inclusion;
    }
    LookupResult::OtherLeaf {
        output: leaf.0,
        commitment: leaf.1,
    }
}

/// The value of a place, 32 zero bytes for an empty one (001 10.9).
fn value(place: &Place) -> Digest {
    place.as_ref().map_or(hashes::EMPTY, |node| node.value)
}

/// A leaf with its value (001 10.9).
fn leaf(leaf: Leaf) -> Place {
    Some(Arc::new(Node {
        value: hashes::prefix_leaf(&leaf.0, &leaf.1),
        kind: NodeKind::Leaf(leaf),
    }))
}

/// A parent with its value (001 10.9).
fn parent(left: Place, right: Place) -> Place {
    Some(Arc::new(Node {
        value: hashes::prefix_parent(&value(&left), &value(&right)),
        kind: NodeKind::Parent { left, right },
    }))
}

/// A place at a depth with more leaves under it, outputs rising (001 3.3).
fn add(place: &Place, depth: usize, leaves: &[Leaf]) -> Place {
    if leaves.is_empty() {
        return place.clone();
    }
    match place.as_deref().map(|node| &node.kind) {
        None if leaves.len() == 1 => leaf(leaves[0]),
        None => add_below(&None, &None, depth, leaves),
        Some(NodeKind::Parent { left, right }) => add_below(left, right, depth, leaves),
        Some(NodeKind::Leaf(old)) => match leaves.binary_search_by_key(&old.0, |leaf| leaf.0) {
            Ok(_) => add(&None, depth, leaves),
            Err(index) => {
                let mut all = leaves.to_vec();
                all.insert(index, *old);
                add(&None, depth, &all)
            }
        },
    }
}

/// A parent at a depth with more leaves under its children (001 3.3).
fn add_below(left: &Place, right: &Place, depth: usize, leaves: &[Leaf]) -> Place {
    let (zeros, ones) = leaves.split_at(leaves.partition_point(|leaf| !bit(&leaf.0, depth)));
    parent(add(left, depth + 1, zeros), add(right, depth + 1, ones))
}

/// A place at a depth without an output's leaf; a leaf left alone moves up.
fn remove(place: &Place, depth: usize, output: &Digest) -> Place {
    let node = place.as_ref()?;
    let (left, right) = match &node.kind {
        NodeKind::Leaf(leaf) => return (leaf.0 != *output).then(|| node.clone()),
        NodeKind::Parent { left, right } if bit(output, depth) => {
            (left.clone(), remove(right, depth + 1, output))
        }
        NodeKind::Parent { left, right } => (remove(left, depth + 1, output), right.clone()),
    };
    match (&left, &right) {
        (None, None) => None,
        (Some(only), None) | (None, Some(only)) if matches!(only.kind, NodeKind::Leaf(_)) => {
            Some(only.clone())
        }
        _ => parent(left, right),
    }
}

/// Appends the leaves under a place, left to right.
fn collect(place: &Place, leaves: &mut Vec<Leaf>) {
    match place.as_deref().map(|node| &node.kind) {
        None => (),
        Some(NodeKind::Leaf(leaf)) => leaves.push(*leaf),
        Some(NodeKind::Parent { left, right }) => {
            collect(left, leaves);
            collect(right, leaves);
        }
    }
}
