//! Prefix trees against ones built anew from sorted lists, and lookups against their hashes
//! (001 3.3 and 10.9).

mod common;

use common::{varied_log, LABEL};
use honest_log::hashes::{prefix_leaf, prefix_parent, EMPTY};
use honest_log::model::{Digest, LookupResult};
use honest_log::vrf::{bit, outputs_leaving, outputs_sharing};
use honest_log::{PrefixTree, Random, VrfRule};

type Leaf = (Digest, Digest);

/// The value of the leaves that share their first bits, by dividing the list at each bit.
fn naive_root(leaves: &[Leaf], depth: usize) -> Digest {
    match leaves {
        [] => EMPTY,
        [leaf] => prefix_leaf(&leaf.0, &leaf.1),
        _ => {
            let (ones, zeros): (Vec<Leaf>, Vec<Leaf>) =
                leaves.iter().partition(|leaf| bit(&leaf.0, depth));
            prefix_parent(
                &naive_root(&zeros, depth + 1),
                &naive_root(&ones, depth + 1),
            )
        }
    }
}

/// The lookup of an output in the same way.
fn naive_lookup(leaves: &[Leaf], output: &Digest, depth: usize) -> (LookupResult, Vec<Digest>) {
    match leaves {
        [] => (LookupResult::EmptyPlace, Vec::new()),
        [leaf] if leaf.0 == *output => (LookupResult::Inclusion, Vec::new()),
        [(output, commitment)] => {
            let (output, commitment) = (*output, *commitment);
            (LookupResult::OtherLeaf { output, commitment }, Vec::new())
        }
        _ => {
            let way = bit(output, depth);
            let (on, off): (Vec<Leaf>, Vec<Leaf>) =
                leaves.iter().partition(|leaf| bit(&leaf.0, depth) == way);
            let (result, below) = naive_lookup(&on, output, depth + 1);
            let mut siblings = vec![naive_root(&off, depth + 1)];
            siblings.extend(below);
            (result, siblings)
        }
    }
}

/// The root that a lookup leads to.
fn reached(result: &LookupResult, siblings: &[Digest], output: &Digest, own: &Digest) -> Digest {
    let mut value = match result {
        LookupResult::Inclusion => prefix_leaf(output, own),
        LookupResult::EmptyPlace => EMPTY,
        LookupResult::OtherLeaf { output, commitment } => prefix_leaf(output, commitment),
    };
    for (depth, sibling) in siblings.iter().enumerate().rev() {
        value = match bit(output, depth) {
            true => prefix_parent(sibling, &value),
            false => prefix_parent(&value, sibling),
        };
    }
    value
}

/// Compares a tree with the list of its leaves, at outputs in it and others.
fn compare(tree: &PrefixTree, leaves: &[Leaf], others: &[Digest]) {
    assert_eq!(tree.leaves(), leaves);
    assert_eq!(tree.root(), naive_root(leaves, 0));
    let inside = leaves.iter().map(|leaf| leaf.0);
    for output in inside.chain(others.iter().copied()) {
        let (result, siblings) = tree.lookup(&output);
        assert_eq!(
            (result.clone(), siblings.clone()),
            naive_lookup(leaves, &output, 0)
        );
        let own = leaves
            .iter()
            .find(|leaf| leaf.0 == output)
            .map(|leaf| leaf.1);
        assert_eq!(tree.commitment(&output), own);
        let root = reached(&result, &siblings, &output, &own.unwrap_or_default());
        assert_eq!(root, tree.root());
    }
}

/// Outputs of which many share beginnings of all lengths.
fn crowded(random: &mut Random, count: usize) -> Vec<Digest> {
    let mut outputs: Vec<Digest> = vec![random.digest()];
    while outputs.len() < count {
        let mut output = *random.pick(&outputs);
        let place = random.below(255) as usize;
        output[place / 8] ^= 128 >> (place % 8);
        if random.one_in(2) {
            output[place / 8 + 1..].copy_from_slice(&random.digest()[place / 8 + 1..]);
        }
        if !outputs.contains(&output) {
            outputs.push(output);
        }
    }
    outputs
}

#[test]
fn earlier_trees_stay() {
    let mut random = Random::new(1);
    for round in 0..4 {
        let outputs = crowded(&mut random, 40);
        let (others, added) = outputs.split_at(10);
        let mut trees = vec![(PrefixTree::new(), Vec::new())];
        let mut rest = added;
        while !rest.is_empty() {
            let count = (random.below(4) as usize).min(rest.len());
            let more: Vec<Leaf> = rest[..count]
                .iter()
                .map(|o| (*o, random.digest()))
                .collect();
            rest = &rest[count..];
            let (tree, leaves) = &trees[trees.len() - 1];
            let mut all: Vec<Leaf> = [&leaves[..], &more].concat();
            all.sort();
            trees.push((tree.with(&more), all));
        }
        for (tree, leaves) in &trees {
            compare(tree, leaves, others);
        }
        assert!(trees.len() > 8, "round {round}");
    }
}

#[test]
fn removed_as_if_never_added() {
    let mut random = Random::new(2);
    let outputs = crowded(&mut random, 30);
    let mut leaves: Vec<Leaf> = outputs.iter().map(|o| (*o, random.digest())).collect();
    leaves.sort();
    let mut tree = PrefixTree::new().with(&leaves);
    let whole = (tree.clone(), leaves.clone());
    while !leaves.is_empty() {
        let (output, _) = leaves.remove(random.below(leaves.len() as u64) as usize);
        tree = tree.without(&output);
        compare(&tree, &leaves, &outputs);
        assert_eq!(tree.without(&output).root(), tree.root());
    }
    compare(&whole.0, &whole.1, &[]);
}

#[test]
fn replaced_commitment() {
    let mut random = Random::new(3);
    let outputs = crowded(&mut random, 12);
    let leaves: Vec<Leaf> = outputs.iter().map(|o| (*o, random.digest())).collect();
    let tree = PrefixTree::new().with(&leaves);
    for index in 0..leaves.len() {
        let mut changed = leaves.clone();
        changed[index].1 = random.digest();
        let other = tree.with(&changed[index..=index]);
        changed.sort();
        compare(&other, &changed, &[]);
    }
}

#[test]
fn every_entry_of_a_log() {
    for vrf in [
        VrfRule::Hashed { seed: 4 },
        VrfRule::Shared { seed: 4, bits: 100 },
        VrfRule::Shared { seed: 4, bits: 222 },
    ] {
        let log = varied_log(4, 25, vrf);
        let last = log.newest_prefix_tree().leaves();
        let others: Vec<Digest> = (0..40).map(|version| log.output(LABEL, version)).collect();
        for position in 0..log.size() {
            let tree = &log.entry(position).prefix_tree;
            let leaves = tree.leaves();
            compare(tree, &leaves, &others);
            assert!(leaves.iter().all(|leaf| last.contains(leaf)));
        }
    }
}

#[test]
fn depths() {
    let mut random = Random::new(5);
    let common = random.digest();
    let depths = |outputs: &[Digest]| -> Vec<usize> {
        let leaves: Vec<Leaf> = outputs.iter().map(|o| (*o, [1; 32])).collect();
        let tree = PrefixTree::new().with(&leaves);
        outputs.iter().map(|o| tree.lookup(o).1.len()).collect()
    };
    assert_eq!(depths(&outputs_sharing(&common, 0, 1)), [0]);
    assert_eq!(depths(&outputs_sharing(&common, 249, 64)), [255; 64]);
    assert_eq!(depths(&outputs_sharing(&common, 255, 2)), [256; 2]);
    let mut leaving = outputs_leaving(&common, 255);
    leaving.push(common);
    let mut expected: Vec<usize> = (1..=255).collect();
    expected.push(255);
    assert_eq!(depths(&leaving), expected);
}

#[test]
fn versions_of_a_label_differ() {
    let rule = VrfRule::Shared { seed: 6, bits: 223 };
    let versions: Vec<u32> = (0..2000).chain(u32::MAX - 2000..=u32::MAX).collect();
    let mut outputs: Vec<Digest> = versions.iter().map(|v| rule.output(LABEL, *v)).collect();
    outputs.sort();
    for pair in outputs.windows(2) {
        let first = (0..256).find(|place| bit(&pair[0], *place) != bit(&pair[1], *place));
        assert!((223..255).contains(&first.unwrap()));
    }
}
