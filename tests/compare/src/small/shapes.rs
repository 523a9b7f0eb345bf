//! The small exchanges, and choices among their damages.

use super::{base, log};
use crate::base::Base;
use crate::case::Case;
use crate::damage::Damage;
use honest_log::model::Kind::{self, Monitor, Search};

/// Name, kind, how many versions each entry has, old size, pairs, size.
pub type Exchanged = (
    &'static str,
    Kind,
    &'static [u32],
    u64,
    &'static [(u64, u32)],
    u64,
);

/// The first search of a label: one entry, one version.
pub const FIRST: Exchanged = ("small first search", Search, &[1], 0, &[], 1);
/// The same tree head once more.
pub const AGAIN: Exchanged = ("small search again", Search, &[1], 1, &[(0, 0)], 1);
/// The label is new at the third entry.
pub const THIRD: Exchanged = ("small search of 3 after 2", Search, &[0, 0, 1], 2, &[], 3);
/// Both entries of the frontier are complete.
pub const BOTH: Exchanged = ("small search, both whole", Search, &[1, 1, 1], 2, &[], 3);
/// A pair that moves from entry 0 to entry 1.
pub const MOVING: Exchanged = ("small monitoring", Monitor, &[1, 1], 1, &[(0, 0)], 2);
/// Nothing to look up.
pub const IDLE: Exchanged = (
    "small monitoring, empty map",
    Monitor,
    &[1, 1, 1],
    2,
    &[],
    3,
);

/// Accepted exchanges of other shapes.
pub const OTHERS: [Exchanged; 13] = [
    (
        "small search of 2 after 1",
        Search,
        &[1, 1],
        1,
        &[(0, 0)],
        2,
    ),
    ("small search of 2 from new", Search, &[1, 1], 0, &[], 2),
    ("small search of 3 from new", Search, &[0, 0, 1], 0, &[], 3),
    (
        "small search of 4 after 3",
        Search,
        &[0, 1, 1, 1],
        3,
        &[(1, 0)],
        4,
    ),
    (
        "small search of 4 after 2",
        Search,
        &[0, 0, 1, 1],
        2,
        &[],
        4,
    ),
    ("small search that finds 1", Search, &[2], 0, &[], 1),
    ("small monitoring from new", Monitor, &[0], 0, &[], 1),
    ("small monitoring again", Monitor, &[1], 1, &[(0, 0)], 1),
    (
        "small pairs that meet",
        Monitor,
        &[1, 1, 1],
        2,
        &[(0, 0), (1, 0)],
        3,
    ),
    (
        "small path of two",
        Monitor,
        &[1, 1, 1, 1],
        3,
        &[(0, 0), (2, 0)],
        4,
    ),
    (
        "small monitoring of 4 after 1",
        Monitor,
        &[1, 1, 1, 1],
        1,
        &[(0, 0)],
        4,
    ),
    (
        "small monitoring of version 1",
        Monitor,
        &[2, 2],
        1,
        &[(0, 1)],
        2,
    ),
    (
        "small pair dominated",
        Monitor,
        &[1, 1, 2, 2],
        3,
        &[(1, 0), (2, 1)],
        4,
    ),
];

pub fn exchanged((name, kind, versions, old_size, pairs, size): Exchanged) -> Base {
    base(name, kind, &log(versions), old_size, pairs, size)
}

/// Some damages of a family to a small exchange, by their names.
pub type Choice = (Exchanged, fn(&Base) -> Vec<Damage>, &'static [&'static str]);

pub fn chosen(choices: &[Choice]) -> Vec<Case> {
    let mut list = Vec::new();
    for (exchange, family, names) in choices {
        let base = exchanged(*exchange);
        let damages = family(&base);
        for name in *names {
            let damage = damages.iter().find(|damage| damage.name == *name);
            let damage = damage.unwrap_or_else(|| panic!("{} has no {name:?}", base.name));
            list.push(damage.apply(&base));
        }
    }
    list
}
