//! Prefix trees that no log would build but the rules allow: leaves deeper than they need to be,
//! empty trees with parents, versions of equal outputs (paper 01, Trees, which asks only that each
//! lookup hashes up to the prefix root).

use super::accepted;
use crate::base::question;
use crate::case::Case;
use crate::damage::leaves::{flipped, lone_search, path_value, rebuilt};
use crate::limits;
use crate::making::looked_up;
use honest_log::hashes::{prefix_leaf, EMPTY};
use honest_log::model::{Digest, Kind, LookupResult};
use honest_log::{Addition, ContentRule, Contents, Log, Random, VrfRule};

pub fn cases() -> Vec<Case> {
    let mut list = Vec::new();
    for (depth, leaves_at) in [
        (1, 0),
        (2, 0),
        (2, 1),
        (3, 3),
        (3, 200),
        (100, 50),
        (255, 0),
        (255, 254),
        (255, 255),
    ] {
        list.push(lonely_leaf(depth, leaves_at));
    }
    for depth in [0, 1, 2, 9, 255] {
        list.push(hollow(depth));
    }
    list.extend(equal_outputs());
    list
}

/// A tree of one leaf that stands at a depth, all places beside its way being empty; version 1
/// leaves its way at a bit.
fn lonely_leaf(depth: usize, leaves_at: usize) -> Case {
    let present = Random::new(depth as u64).digest();
    let base = lone_search(present, flipped(&present, leaves_at));
    let commitment = base.log.commitment(b"x", 0);
    let leaf = prefix_leaf(&present, &commitment);
    let siblings = vec![EMPTY; depth];
    let other = if leaves_at < depth {
        let below = path_value(leaf, &present, &siblings, leaves_at + 1);
        let beside = [vec![EMPTY; leaves_at], vec![below]].concat();
        looked_up(1, LookupResult::EmptyPlace, beside)
    } else {
        let output = present;
        let result = LookupResult::OtherLeaf { output, commitment };
        looked_up(1, result, siblings.clone())
    };
    let prefix_root = path_value(leaf, &present, &siblings, 0);
    let lookups = vec![looked_up(0, LookupResult::Inclusion, siblings), other];
    let name = format!("one leaf at depth {depth}, left at bit {leaves_at}");
    Case::of(name, 0, &rebuilt(&base, prefix_root, lookups))
}

/// An early entry whose tree is empty and yet has parents down to a depth.
fn hollow(depth: usize) -> Case {
    let mut log = Log::new(VrfRule::Hashed { seed: 4 });
    let rule = ContentRule {
        seed: 4,
        shortest: 1,
        longest: 5,
    };
    log.append(1, &[]);
    log.append(2, &[]);
    log.append(3, &rule.additions(b"x", &[0]));
    let siblings = vec![EMPTY; depth];
    let root = path_value(EMPTY, &log.output(b"x", 0), &siblings, 0);
    let log = log.with_prefix_root(1, root);
    let answer = log
        .search(&question(&log, b"x", 0, &[], 3))
        .expect("version 0 is there");
    let mut exchange = answer.exchange;
    let lookup = looked_up(0, LookupResult::EmptyPlace, siblings);
    exchange.response.entries[0].lookups = vec![lookup];
    Case::of(
        format!("an empty tree of {depth} empty siblings"),
        0,
        &exchange,
    )
}

/// A log of two equal entries whose versions have these outputs, and all the same contents.
fn log_of(outputs: [Digest; 4], versions: &[u32]) -> Log {
    let contents = Contents {
        value: vec![5],
        opening: [6; limits::OPENING],
    };
    let addition = |version: &u32| Addition {
        label: b"x".to_vec(),
        version: *version,
        contents: contents.clone(),
    };
    let otherwise = VrfRule::Hashed { seed: 1 };
    let mut log = Log::new(VrfRule::table(b"x", &[0, 1, 2, 3], &outputs, otherwise));
    let additions: Vec<Addition> = versions.iter().map(addition).collect();
    log.append_run(1, &additions, 2);
    log
}

/// Versions that share an output, there or not; nothing compares them.
fn equal_outputs() -> Vec<Case> {
    let [one, two, three] = [1, 2, 3].map(|seed| Random::new(seed).digest());
    let absent = log_of([one, two, three, three], &[0, 1]);
    let there = log_of([one, one, two, three], &[0, 1]);
    let hidden = log_of([one, one, two, three], &[0]);
    let ask = |log: &Log, pairs: &[(u64, u32)]| question(log, b"x", 1, pairs, 2);
    let (search, monitor) = (Kind::Search, Kind::Monitor);
    let mut list = vec![
        accepted(
            "missing versions of one output",
            &absent,
            search,
            ask(&absent, &[]),
        ),
        accepted(
            "versions of one leaf searched",
            &there,
            search,
            ask(&there, &[]),
        ),
        accepted(
            "versions of one leaf monitored",
            &there,
            monitor,
            ask(&there, &[(0, 1)]),
        ),
    ];
    let name = "a version above the target with the target's output";
    let answer = hidden.search_target(&ask(&hidden, &[]), 0);
    list.extend(answer.map(|answer| Case::of(name, 13, &answer.exchange)));
    list
}
