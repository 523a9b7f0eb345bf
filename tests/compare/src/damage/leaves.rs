//! Number 12 in logs whose prefix roots are really so: roots that no lookup leads to, and trees in
//! which a leaf stands where its output does not lead (paper 01, Trees).

use crate::base::{question, Base, Plan};
use crate::case::Case;
use crate::making::looked_up;
use honest_log::hashes::{log_leaf, prefix_leaf, prefix_parent};
use honest_log::model::{Digest, Exchange, Kind, Lookup, LookupResult};
use honest_log::vrf::bit;
use honest_log::{Random, VrfRule};

/// Real logs with another prefix root at a shown entry; without lookups there it does no harm.
pub fn cases(base: &Base) -> Vec<Case> {
    let mut list = Vec::new();
    for entry in &base.exchange.response.entries {
        let position = entry.position;
        let log = base.log.with_prefix_root(position, [0x5b; 32]);
        let number = if entry.lookups.is_empty() { 0 } else { 12 };
        if let Some(exchange) = base.asked_of(&log) {
            let name = format!("{}: log with another prefix root at {position}", base.name);
            list.push(Case::of(name, number, &exchange));
        }
    }
    list
}

/// The output with one bit other.
pub fn flipped(output: &Digest, place: usize) -> Digest {
    let mut output = *output;
    output[place / 8] ^= 0x80 >> (place % 8);
    output
}

/// The value at a depth that a leaf and its siblings, listed from the root, lead to on the way of
/// an output.
pub fn path_value(leaf: Digest, output: &Digest, siblings: &[Digest], depth: usize) -> Digest {
    siblings
        .iter()
        .enumerate()
        .skip(depth)
        .rev()
        .fold(leaf, |below, (place, sibling)| {
            if bit(output, place) {
                prefix_parent(sibling, &below)
            } else {
                prefix_parent(&below, sibling)
            }
        })
}

/// The search of a log of one entry whose label has these outputs for versions 0 and 1.
pub fn lone_search(present: Digest, absent: Digest) -> Base {
    let otherwise = VrfRule::Hashed { seed: 1 };
    let mut plan = Plan::new(b"x", 1, &[(0, 0)]);
    plan.vrf = VrfRule::table(b"x", &[0, 1], &[present, absent], otherwise);
    plan.others = 0;
    let log = plan.log();
    Base::new(
        "lone search",
        Kind::Search,
        &log,
        question(&log, b"x", 0, &[], 1),
    )
}

/// The search of a log of one entry with other lookups, which lead to this prefix root.
pub fn rebuilt(base: &Base, prefix_root: Digest, lookups: Vec<Lookup>) -> Exchange {
    let mut exchange = base.exchange.clone();
    let entry = &mut exchange.response.entries[0];
    entry.prefix_root = prefix_root;
    entry.lookups = lookups;
    exchange.root = log_leaf(entry.time, &entry.prefix_root);
    exchange.new_state.values = vec![exchange.root];
    exchange
}

/// A log of one entry in which, at a depth, version 0 stands on one side and on the other, where
/// version 1 would be, a leaf whose output shares so many bits with version 1's; with a full share
/// it is an honest tree.
pub fn misplaced(depth: usize, shared: usize) -> Exchange {
    let mut random = Random::new(depth as u64 * 1000 + shared as u64);
    let absent = random.digest();
    let present = flipped(&absent, depth - 1);
    let output = flipped(&absent, shared);
    let base = lone_search(present, absent);
    let commitment = base.log.commitment(b"x", 0);
    let leaf = prefix_leaf(&present, &commitment);
    let above: Vec<Digest> = (1..depth).map(|_| random.digest()).collect();
    let siblings = [&above[..], &[prefix_leaf(&output, &commitment)]].concat();
    let other_siblings = [&above[..], &[leaf]].concat();
    let prefix_root = path_value(leaf, &present, &siblings, 0);
    let other = LookupResult::OtherLeaf { output, commitment };
    let lookups = vec![
        looked_up(0, LookupResult::Inclusion, siblings),
        looked_up(1, other, other_siblings),
    ];
    rebuilt(&base, prefix_root, lookups)
}

/// Other leaves that share too few bits with the searched output, by one and by many, and just
/// enough.
pub fn fixed_cases() -> Vec<Case> {
    let mut list = Vec::new();
    for depth in [1, 2, 3, 8, 9, 64, 254, 255] {
        for shared in [0, depth / 2, depth - 1, depth, depth + 1, 255] {
            let number = if shared < depth { 12 } else { 0 };
            if shared > 255 {
                continue;
            }
            let name = format!("other leaf at depth {depth} that shares {shared} bits");
            list.push(Case::of(name, number, &misplaced(depth, shared)));
        }
    }
    list
}
