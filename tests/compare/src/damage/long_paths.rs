//! Some damages to monitoring that shows hundreds of entries, most of them under kept values: a few
//! of each family and number (paper 01, Sixteen numbers: 9 to 15).

use super::{forks, lookups, paths, shape, shape_monitor, times, Damage};
use crate::base::Base;
use crate::case::Case;
use crate::honest::long_paths;
use crate::selection::spread;
use std::collections::BTreeMap;

const FAMILIES: [fn(&Base) -> Vec<Damage>; 7] = [
    shape::entries,
    shape::nodes,
    lookups::damages,
    shape_monitor::damages,
    times::damages,
    paths::damages,
    forks::damages,
];

/// How many of a family and a number.
const SOME: usize = 4;

pub fn fixed_cases() -> Vec<Case> {
    let mut list = Vec::new();
    for base in long_paths::bases() {
        for family in FAMILIES {
            let mut by_number: BTreeMap<u8, Vec<Damage>> = BTreeMap::new();
            for damage in family(&base) {
                by_number.entry(damage.number).or_default().push(damage);
            }
            let some = by_number.into_values();
            let some = some.flat_map(|damages| spread(damages, SOME));
            list.extend(some.map(|damage| damage.apply(&base)));
        }
    }
    list
}
