//! Answers to monitoring (000 4.4; paper 01, Ladder, search, monitoring).

use crate::answer::{Answer, NoAnswer, Parts, Question};
use crate::ladder::monitoring_ladder;
use crate::log::Log;
use crate::model::Step;
use crate::search_tree::{frontier, right_ancestors};
use std::collections::{BTreeMap, BTreeSet};

impl Log {
    /// The answer to monitoring the map of the state (paper 01, Monitoring).
    pub fn monitor(&self, question: &Question) -> Result<Answer, NoAnswer> {
        self.check_size(question)?;
        let label = &question.state.label;
        let monitored = monitored(question);
        let lookups: BTreeMap<u64, Vec<u32>> = monitored
            .iter()
            .map(|(&position, version)| (position, version.map_or(Vec::new(), monitoring_ladder)))
            .collect();
        let versions: BTreeSet<u32> = lookups.values().flatten().copied().collect();
        let step = |version| Step {
            version,
            commitment: Some(self.commitment(label, version)),
        };
        let parts = Parts {
            target: None,
            steps: versions.into_iter().map(step).collect(),
            lookups,
            map: moved(question),
        };
        Ok(self.answer(question, parts))
    }
}

/// The map entries that lie within the size asked for, which are all unless the checker is ahead.
fn pairs(question: &Question) -> impl Iterator<Item = (u64, u32)> + '_ {
    let within = |pair: &(u64, u32)| pair.0 < question.size;
    question.state.pairs.iter().copied().filter(within)
}

/// The positions shown, each with the largest version of the map entries on whose right path it
/// lies (paper 01, Monitoring).
fn monitored(question: &Question) -> BTreeMap<u64, Option<u32>> {
    let frontier = frontier(question.size);
    let mut monitored: BTreeMap<u64, Option<u32>> = frontier
        .into_iter()
        .map(|position| (position, None))
        .collect();
    for (position, version) in pairs(question) {
        for ancestor in right_ancestors(position, question.size) {
            let largest = monitored.entry(ancestor).or_default();
            *largest = (*largest).max(Some(version));
        }
    }
    monitored
}

/// The map after monitoring: each entry at the end of its right path, the larger version where two
/// meet (paper 01, Monitoring).
fn moved(question: &Question) -> BTreeMap<u64, u32> {
    let mut map = BTreeMap::new();
    for (position, version) in pairs(question) {
        let ancestors = right_ancestors(position, question.size);
        let end = ancestors.last().copied().unwrap_or(position);
        let largest = map.entry(end).or_insert(version);
        *largest = version.max(*largest);
    }
    map
}
