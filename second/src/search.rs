//! What a greatest-version search asks of a response (paper 01, Ladder, search, monitoring).

use crate::ladder::{binary_ladder, Version};
use crate::refusal::Refusal;
use crate::response::{Lookup, Response, Step};
use crate::search_tree::frontier;
use crate::state::MapEntry;

/// A search that found a target in a tree of some size.
pub struct Search {
    target: Version,
    ladder: Vec<u32>,
    frontier: Vec<u64>,
}

/// What the lookups of an entry show.
#[derive(Clone, Copy, Debug, PartialEq, Eq)]
enum Shown {
    /// The target is the greatest version there: paper 01 calls the entry whole.
    Complete,
    /// The greatest version there is below the target: paper 01 calls the entry short.
    EndsEarly,
}

impl Search {
    /// A search in a tree of this size, refused if the target is no version or is older than one in
    /// the map (paper 01, Sixteen numbers, 8).
    pub fn new(target: u32, tree_size: u64, map: &[MapEntry]) -> Result<Self, Refusal> {
        let target = Version::new(target).ok_or(Refusal::Target)?;
        Refusal::Target.unless(map.iter().all(|entry| entry.version <= target))?;
        Ok(Search {
            target,
            ladder: binary_ladder(target),
            frontier: frontier(tree_size),
        })
    }

    /// The positions of the entries that have to be shown: the frontier.
    pub fn positions(&self) -> Vec<u64> {
        self.frontier.clone()
    }

    /// Says whether steps, entries and the versions looked up are those asked for (paper 01,
    /// Sixteen numbers, 9).
    pub fn fits(&self, response: &Response) -> bool {
        let positions = response.entries.iter().map(|entry| entry.position);
        self.steps_fit(&response.steps)
            && positions.eq(self.frontier.iter().copied())
            && response
                .entries
                .iter()
                .all(|entry| self.lookups_fit(response.lookups_of(entry)))
    }

    /// Says whether the steps are the ladder, with commitments just below the target.
    fn steps_fit(&self, steps: &[Step]) -> bool {
        let versions = steps.iter().map(|step| step.version);
        versions.eq(self.ladder.iter().copied())
            && steps
                .iter()
                .all(|step| step.commitment.is_some() == (step.version < self.target.number()))
    }

    /// Says whether an entry has lookups, and they follow the ladder from its first version on.
    fn lookups_fit(&self, lookups: &[Lookup]) -> bool {
        !lookups.is_empty()
            && lookups.len() <= self.ladder.len()
            && lookups
                .iter()
                .zip(&self.ladder)
                .all(|(lookup, &version)| lookup.version == version)
    }

    /// What an entry's lookups show, or nothing if they show neither of the two.
    fn shown_by(&self, lookups: &[Lookup]) -> Option<Shown> {
        let as_in_complete =
            |lookup: &Lookup| lookup.is_inclusion() == (lookup.version <= self.target.number());
        let (last, earlier) = lookups.split_last()?;
        if !earlier.iter().all(as_in_complete) {
            None
        } else if as_in_complete(last) {
            (lookups.len() == self.ladder.len()).then_some(Shown::Complete)
        } else {
            (!last.is_inclusion()).then_some(Shown::EndsEarly)
        }
    }

    /// The position of the first entry with a complete ladder, if the ladders before it all end
    /// early and those after it are all complete.
    fn first_complete(&self, response: &Response) -> Option<u64> {
        let mut first = None;
        for entry in &response.entries {
            match self.shown_by(response.lookups_of(entry))? {
                Shown::Complete => first = first.or(Some(entry.position)),
                Shown::EndsEarly if first.is_some() => return None,
                Shown::EndsEarly => {}
            }
        }
        first
    }

    /// The map with the target at the first complete entry, refused if the ladders don't single one
    /// out (paper 01, Sixteen numbers, 13).
    pub fn updated_map(
        &self,
        response: &Response,
        map: &[MapEntry],
    ) -> Result<Vec<MapEntry>, Refusal> {
        let found = MapEntry {
            position: self.first_complete(response).ok_or(Refusal::Ladder)?,
            version: self.target,
        };
        let mut updated = map.to_vec();
        match map.binary_search_by_key(&found.position, |entry| entry.position) {
            Ok(index) => updated[index] = found,
            Err(index) => updated.insert(index, found),
        }
        Ok(updated)
    }
}

#[cfg(test)]
mod tests {
    use super::*;
    use crate::response::LookupResult;

    fn version(number: u32) -> Version {
        Version::new(number).unwrap()
    }

    fn entry(position: u64, number: u32) -> MapEntry {
        MapEntry {
            position,
            version: version(number),
        }
    }

    // Lookups for the ladder's beginning, one for each letter: i is `in`, n is `no`.
    fn lookups(search: &Search, results: &str) -> Vec<Lookup<'static>> {
        let lookup = |(letter, &version): (char, &u32)| Lookup {
            version,
            result: match letter {
                'i' => LookupResult::Inclusion,
                _ => LookupResult::NonInclusionParent,
            },
            siblings: &[],
        };
        results.chars().zip(&search.ladder).map(lookup).collect()
    }

    #[test]
    fn targets() {
        let map = [entry(0, 4), entry(5, 2)];
        assert!(Search::new(4, 7, &map).is_ok());
        assert!(Search::new(3, 7, &map).is_err());
        assert!(Search::new(0, 7, &[]).is_ok());
        assert!(Search::new(u32::MAX - 1, 7, &map).is_ok());
        let beyond = Search::new(u32::MAX, 7, &map).err();
        assert_eq!(beyond, Some(Refusal::Target));
        assert_eq!(Search::new(3, 13, &[]).unwrap().positions(), [7, 11, 12]);
    }

    // The ladder of 5 is 0 1 3 7 5 6: in, in, in, not in, in, not in.
    #[test]
    fn complete_and_ending_early() {
        let search = Search::new(5, 1, &[]).unwrap();
        let shown = |results: &str| search.shown_by(&lookups(&search, results));
        assert_eq!(shown("iiinin"), Some(Shown::Complete));
        // Ends at the first missing version up to the target, also the ladder's last but one.
        for results in ["n", "in", "iin", "iiinn"] {
            assert_eq!(shown(results), Some(Shown::EndsEarly), "{results}");
        }
        // Ends too early, goes on too long, or has a version above the target.
        for results in [
            "", "i", "ii", "iii", "iiin", "iiini", "nn", "ni", "inn", "iinn", "iiinnn", "iiii",
            "iiiin", "iiiiin", "iiinii", "iiinni", "iiin i",
        ] {
            assert_eq!(shown(results), None, "{results}");
        }
    }

    // The ladder of 2 is 0 1 3 2: with its last version missing the whole ladder ends early.
    #[test]
    fn whole_ladder_ending_early() {
        let search = Search::new(2, 1, &[]).unwrap();
        let shown = |results: &str| search.shown_by(&lookups(&search, results));
        assert_eq!(shown("iini"), Some(Shown::Complete));
        assert_eq!(shown("iinn"), Some(Shown::EndsEarly));
        assert_eq!(shown("iiin"), None);
        assert_eq!(shown("iiii"), None);
    }

    #[test]
    fn lookup_versions() {
        let search = Search::new(5, 1, &[]).unwrap();
        for length in 1..=6 {
            assert!(search.lookups_fit(&lookups(&search, &"i".repeat(length))));
        }
        assert!(!search.lookups_fit(&[]));
        let mut wrong = lookups(&search, "iii");
        wrong[2].version = 2;
        assert!(!search.lookups_fit(&wrong));
        let mut long = lookups(&search, "iiinin");
        long.extend(lookups(&search, "i"));
        assert!(!search.lookups_fit(&long));
    }

    // A response with these entries, each with `in` (i) or `no` (n) for the ladder's beginning.
    fn response(search: &Search, entries: &[(u64, &str)]) -> String {
        let zeros = |bytes: usize| "00".repeat(bytes);
        let mut text = format!("kt\tmonitor\t{}\t-\nhead\t7\n", zeros(16));
        for (position, results) in entries {
            text += &format!("entry\t{position}\t0\t{}\n", zeros(32));
            for (letter, version) in results.chars().zip(&search.ladder) {
                let word = if letter == 'i' { "in" } else { "no" };
                text += &format!("{word}\t{version}\t-\n");
            }
        }
        text + "end\n"
    }

    // The ladder of 0 is 0 1; the frontier of 7 is 3 5 6.
    #[test]
    fn order_of_entries() {
        let search = Search::new(0, 7, &[]).unwrap();
        let first_complete = |results: [&str; 3]| {
            let [first, second, third] = results;
            let text = response(&search, &[(3, first), (5, second), (6, third)]);
            search.first_complete(&Response::read(text.as_bytes()).unwrap())
        };
        assert_eq!(first_complete(["in", "in", "in"]), Some(3));
        assert_eq!(first_complete(["n", "in", "in"]), Some(5));
        assert_eq!(first_complete(["n", "n", "in"]), Some(6));
        assert_eq!(first_complete(["n", "n", "n"]), None);
        assert_eq!(first_complete(["in", "n", "in"]), None);
        assert_eq!(first_complete(["in", "in", "n"]), None);
        assert_eq!(first_complete(["n", "in", "n"]), None);
        assert_eq!(first_complete(["ii", "in", "in"]), None);
        assert_eq!(first_complete(["i", "in", "in"]), None);
        assert_eq!(first_complete(["nn", "in", "in"]), None);
    }

    #[test]
    fn updated_maps() {
        let search = Search::new(4, 7, &[]).unwrap();
        let text = response(&search, &[(3, "n"), (5, "iiinni"), (6, "iiinni")]);
        let response = Response::read(text.as_bytes()).unwrap();
        assert_eq!(search.ladder, [0, 1, 3, 7, 5, 4]);
        let updated = |map: &[MapEntry]| search.updated_map(&response, map).unwrap();
        assert_eq!(updated(&[]), [entry(5, 4)]);
        assert_eq!(updated(&[entry(3, 1)]), [entry(3, 1), entry(5, 4)]);
        assert_eq!(updated(&[entry(6, 4)]), [entry(5, 4), entry(6, 4)]);
        let replaced = updated(&[entry(3, 1), entry(5, 2), entry(6, 0)]);
        assert_eq!(replaced, [entry(3, 1), entry(5, 4), entry(6, 0)]);
    }
}
