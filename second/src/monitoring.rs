//! What monitoring asks of a response (paper 01, Ladder, search, monitoring; 000, 4.4).

use std::collections::BTreeMap;

use crate::ladder::{monitoring_ladder, Version};
use crate::refusal::Refusal;
use crate::response::{Lookup, Response, Step};
use crate::search_tree::{frontier, right_ancestors};
use crate::state::MapEntry;

/// An entry that has to be shown, with the version whose ladder it has to carry, if any.
#[derive(Clone, Copy, Debug, PartialEq, Eq)]
struct Visit {
    position: u64,
    target: Option<Version>,
}

/// Monitoring of a map in a tree of some size.
pub struct Monitoring {
    /// The frontier and all right ancestors of the map's positions, rising.
    visits: Vec<Visit>,
    /// The map once all has been shown.
    updated_map: Vec<MapEntry>,
}

impl Monitoring {
    /// What has to be shown for a map in a tree of this size, and what then becomes of the map (000,
    /// 4.4).
    pub fn new(tree_size: u64, map: &[MapEntry]) -> Self {
        let mut targets = BTreeMap::new();
        for position in frontier(tree_size) {
            targets.insert(position, None);
        }
        let mut moved = BTreeMap::new();
        for entry in map {
            let ancestors = right_ancestors(entry.position, tree_size);
            for &ancestor in &ancestors {
                let target = targets.entry(ancestor).or_insert(None);
                *target = (*target).max(Some(entry.version));
            }
            let position = ancestors.last().copied().unwrap_or(entry.position);
            let version = moved.entry(position).or_insert(entry.version);
            *version = (*version).max(entry.version);
        }
        let visits = targets.into_iter();
        let moved = moved.into_iter();
        Monitoring {
            visits: visits
                .map(|(position, target)| Visit { position, target })
                .collect(),
            updated_map: moved
                .map(|(position, version)| MapEntry { position, version })
                .collect(),
        }
    }

    /// The positions of the entries that have to be shown, rising.
    pub fn positions(&self) -> Vec<u64> {
        self.visits.iter().map(|visit| visit.position).collect()
    }

    /// Says whether steps, entries and the versions looked up are those asked for (paper 01,
    /// Sixteen numbers, 9).
    pub fn fits(&self, response: &Response) -> bool {
        let positions = response.entries.iter().map(|entry| entry.position);
        self.steps_fit(&response.steps)
            && positions.eq(self.visits.iter().map(|visit| visit.position))
            && response
                .entries
                .iter()
                .zip(&self.visits)
                .all(|(entry, visit)| visit.lookups_fit(response.lookups_of(entry)))
    }

    /// Says whether the steps list what is looked up at any entry, each with its commitment.
    fn steps_fit(&self, steps: &[Step]) -> bool {
        let versions = steps.iter().map(|step| step.version);
        versions.eq(self.versions()) && steps.iter().all(|step| step.commitment.is_some())
    }

    /// The versions that have to be looked up at one entry or another, rising.
    fn versions(&self) -> Vec<u32> {
        let mut targets: Vec<Version> = self.visits.iter().filter_map(|v| v.target).collect();
        targets.sort_unstable();
        targets.dedup();
        let mut versions: Vec<u32> = Vec::new();
        for target in targets {
            versions.extend(monitoring_ladder(target));
        }
        versions.sort_unstable();
        versions.dedup();
        versions
    }

    /// The map after monitoring, refused if a lookup is not for inclusion (paper 01, Sixteen
    /// numbers, 13).
    pub fn updated_map(&self, response: &Response) -> Result<Vec<MapEntry>, Refusal> {
        let mut lookups = response
            .entries
            .iter()
            .flat_map(|entry| response.lookups_of(entry));
        Refusal::Ladder.unless(lookups.all(Lookup::is_inclusion))?;
        Ok(self.updated_map.clone())
    }
}

impl Visit {
    /// Says whether the lookups are for this entry's ladder, up to its target, or none.
    fn lookups_fit(&self, lookups: &[Lookup]) -> bool {
        let versions = lookups.iter().map(|lookup| lookup.version);
        match self.target {
            Some(target) => versions.eq(monitoring_ladder(target)),
            None => lookups.is_empty(),
        }
    }
}

#[cfg(test)]
mod tests {
    use super::*;

    fn map(entries: &[(u64, u32)]) -> Vec<MapEntry> {
        let entry = |&(position, version)| MapEntry {
            position,
            version: Version::new(version).unwrap(),
        };
        entries.iter().map(entry).collect()
    }

    fn visits(monitoring: &Monitoring) -> Vec<(u64, Option<u32>)> {
        let visit = |v: &Visit| (v.position, v.target.map(Version::number));
        monitoring.visits.iter().map(visit).collect()
    }

    // Without a map, or with all of it on the frontier, the frontier is shown and no more.
    #[test]
    fn nothing_to_look_up() {
        for entries in [&[][..], &[(7, 3)], &[(7, 3), (11, 0), (13, 9)]] {
            let monitoring = Monitoring::new(14, &map(entries));
            assert_eq!(visits(&monitoring), [(7, None), (11, None), (13, None)]);
            assert_eq!(monitoring.versions(), []);
            assert_eq!(monitoring.updated_map, map(entries));
        }
    }

    // In a tree of 14 the right path of 4 is 5 7, that of 8 is 9 11.
    #[test]
    fn right_paths() {
        let monitoring = Monitoring::new(14, &map(&[(4, 1), (8, 2)]));
        let expected = [
            (5, Some(1)),
            (7, Some(1)),
            (9, Some(2)),
            (11, Some(2)),
            (13, None),
        ];
        assert_eq!(visits(&monitoring), expected);
        assert_eq!(monitoring.versions(), [0, 1, 2]);
        assert_eq!(monitoring.updated_map, map(&[(7, 1), (11, 2)]));
    }

    // Where paths join the larger version counts, whichever comes first; an entry's own pair
    // doesn't.
    #[test]
    fn joined_paths() {
        let later_is_larger = Monitoring::new(14, &map(&[(0, 1), (4, 5), (7, 9)]));
        let expected = [
            (1, Some(1)),
            (3, Some(1)),
            (5, Some(5)),
            (7, Some(5)),
            (11, None),
            (13, None),
        ];
        assert_eq!(visits(&later_is_larger), expected);
        assert_eq!(later_is_larger.versions(), [0, 1, 3, 5]);
        assert_eq!(later_is_larger.updated_map, map(&[(7, 9)]));

        let earlier_is_larger = Monitoring::new(14, &map(&[(0, 5), (4, 1)]));
        assert_eq!(earlier_is_larger.visits[3].position, 7);
        assert_eq!(earlier_is_larger.visits[3].target, Version::new(5));
        assert_eq!(earlier_is_larger.visits[2].target, Version::new(1));
        assert_eq!(earlier_is_larger.updated_map, map(&[(7, 5)]));
    }

    // A pair outdone all along its path adds no version to the steps.
    #[test]
    fn outdone_pair() {
        // The right path of 0 is 1 3 7 and that of 2 is 3 7; 0 has the larger version.
        let monitoring = Monitoring::new(8, &map(&[(0, 4), (2, 2)]));
        let expected = [(1, Some(4)), (3, Some(4)), (7, Some(4))];
        assert_eq!(visits(&monitoring), expected);
        assert_eq!(monitoring.versions(), [0, 1, 3, 4]);
        assert_eq!(monitoring.updated_map, map(&[(7, 4)]));
    }

    #[test]
    fn ends_on_the_frontier() {
        for n in 1..64 {
            let everywhere: Vec<(u64, u32)> = (0..n.min(48)).map(|p| (p, p as u32)).collect();
            let monitoring = Monitoring::new(n, &map(&everywhere));
            let front = frontier(n);
            for entry in &monitoring.updated_map {
                assert!(front.contains(&entry.position));
            }
            let positions = monitoring.positions();
            assert!(positions.is_sorted_by(|a, b| a < b));
            assert!(front.iter().all(|position| positions.contains(position)));
        }
    }
}
