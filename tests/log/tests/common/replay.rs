//! What a reader of a response can work out from it and from the state alone.

use honest_log::hashes::{commitment, log_leaf, log_parent, prefix_leaf, prefix_parent, EMPTY};
use honest_log::model::{Digest, Entry, Exchange, Lookup, LookupResult};
use std::collections::BTreeMap;

/// The log root that the entries, the nodes and the kept values give, all nodes being used.
pub fn root(exchange: &Exchange) -> Digest {
    let mut kept = BTreeMap::new();
    let mut start = 0;
    for (bit, value) in (0..64)
        .rev()
        .filter(|b| exchange.state.size >> b & 1 == 1)
        .zip(&exchange.state.values)
    {
        kept.insert((start, 1 << bit), *value);
        start += 1 << bit;
    }
    let mut nodes = exchange.response.nodes.iter();
    let value = subtree(exchange, &kept, &mut nodes, 0, exchange.response.size);
    assert!(nodes.next().is_none(), "a node is left over");
    value
}

fn subtree(
    exchange: &Exchange,
    kept: &BTreeMap<(u64, u64), Digest>,
    nodes: &mut std::slice::Iter<Digest>,
    start: u64,
    width: u64,
) -> Digest {
    let inside = |position: u64| start <= position && position - start < width;
    let shown: Vec<&Entry> = exchange
        .response
        .entries
        .iter()
        .filter(|e| inside(e.position))
        .collect();
    let own = kept.get(&(start, width));
    if shown.is_empty() {
        if let Some(value) = own {
            return *value;
        }
        if !kept
            .keys()
            .any(|&(from, wide)| inside(from) && from + wide <= start + width)
        {
            return *nodes.next().expect("a node is missing");
        }
    }
    let value = if width == 1 {
        log_leaf(shown[0].time, &shown[0].prefix_root)
    } else {
        let mut half = 1;
        while 2 * half < width {
            half *= 2;
        }
        let left = subtree(exchange, kept, nodes, start, half);
        let right = subtree(exchange, kept, nodes, start + half, width - half);
        log_parent((half == 1, &left), (width - half == 1, &right))
    };
    if let Some(own) = own {
        assert_eq!(value, *own, "a kept value differs");
    }
    value
}

/// Whether every lookup leads to the prefix root of its entry, with the commitments of the steps
/// and of the target.
pub fn lookups_lead(exchange: &Exchange) -> bool {
    let entries = &exchange.response.entries;
    entries.iter().all(|entry| {
        let mut lookups = entry.lookups.iter();
        lookups.all(|lookup| prefix_root(exchange, lookup) == entry.prefix_root)
    })
}

fn prefix_root(exchange: &Exchange, lookup: &Lookup) -> Digest {
    let outputs: BTreeMap<u32, Digest> = exchange.sheet.iter().copied().collect();
    let output = outputs[&lookup.version];
    let mut value = match &lookup.result {
        LookupResult::Inclusion => prefix_leaf(&output, &committed(exchange, lookup.version)),
        LookupResult::EmptyPlace => EMPTY,
        LookupResult::OtherLeaf {
            output: other,
            commitment,
        } => {
            assert_ne!(*other, output);
            prefix_leaf(other, commitment)
        }
    };
    for (depth, sibling) in lookup.siblings.iter().enumerate().rev() {
        value = match output[depth / 8] << (depth % 8) & 0x80 {
            0 => prefix_parent(&value, sibling),
            _ => prefix_parent(sibling, &value),
        };
    }
    value
}

/// The commitment that the response gives or that its target opens.
fn committed(exchange: &Exchange, version: u32) -> Digest {
    let response = &exchange.response;
    let step = response
        .steps
        .iter()
        .find(|step| step.version == version)
        .unwrap();
    match (&response.target, step.commitment) {
        (Some(target), None) if target.version == version => {
            commitment(&target.opening, &response.label, &target.value)
        }
        (_, given) => given.expect("a commitment is missing"),
    }
}
