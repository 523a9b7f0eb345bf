//! Answers to searches (paper 01, Ladder, search, monitoring).

use crate::answer::{Answer, NoAnswer, Parts, Question};
use crate::ladder::binary_ladder;
use crate::log::Log;
use crate::model::{Step, Target};
use crate::search_tree::frontier;

/// What the ladder of a target finds in the tree of an entry; paper 01 says whole and short.
#[derive(Clone, Copy, PartialEq, Eq)]
pub(crate) enum LadderEnd {
    /// A version up to the target is missing and none above it stood before.
    Early,
    /// All versions up to the target are there and none above.
    Complete,
    /// A version above the target is there.
    Contradicted,
}

impl Log {
    /// The answer to a search: the target is the greatest version in the last tree (paper 01,
    /// Search).
    pub fn search(&self, question: &Question) -> Result<Answer, NoAnswer> {
        self.check_size(question)?;
        let greatest = self.greatest_version(&question.state.label, question.size);
        self.search_target(question, greatest.ok_or(NoAnswer::NoVersion)?)
    }

    /// The answer to a search for any target, the greatest or not, there or not.
    pub fn search_target(&self, question: &Question, target: u32) -> Result<Answer, NoAnswer> {
        self.check_size(question)?;
        let label = &question.state.label;
        let ladder = binary_ladder(target);
        let shown = frontier(question.size);
        let contents = self.contents(label, target);
        let complete =
            |&&position: &&u64| self.ladder_end(label, target, position) == LadderEnd::Complete;
        let new_pair = shown
            .iter()
            .find(complete)
            .map(|&position| (position, target));
        let lookups = |&position: &u64| (position, self.looked_up(label, target, position));
        let parts = Parts {
            target: Some(Target {
                version: target,
                opening: contents.opening.to_vec(),
                value: contents.value,
            }),
            steps: ladder
                .iter()
                .map(|&version| self.search_step(label, target, version))
                .collect(),
            lookups: shown.iter().map(lookups).collect(),
            map: question
                .state
                .pairs
                .iter()
                .copied()
                .chain(new_pair)
                .collect(),
        };
        Ok(self.answer(question, parts))
    }

    /// A step of a search, with the commitment of a version below the target only (paper 01,
    /// Search).
    fn search_step(&self, label: &[u8], target: u32, version: u32) -> Step {
        Step {
            version,
            commitment: (version < target).then(|| self.commitment(label, version)),
        }
    }

    /// The versions looked up at an entry: the ladder to its end or to the first missing version
    /// up to the target (paper 01, Search).
    fn looked_up(&self, label: &[u8], target: u32, position: u64) -> Vec<u32> {
        let mut ladder = binary_ladder(target);
        let missing =
            |&version: &u32| version <= target && !self.has_version(label, version, position);
        if let Some(last) = ladder.iter().position(missing) {
            ladder.truncate(last + 1);
        }
        ladder
    }

    /// How the ladder of a target ends in the tree of an entry (paper 01, Search).
    pub(crate) fn ladder_end(&self, label: &[u8], target: u32, position: u64) -> LadderEnd {
        for version in binary_ladder(target) {
            match (
                self.has_version(label, version, position),
                version <= target,
            ) {
                (false, true) => return LadderEnd::Early,
                (true, false) => return LadderEnd::Contradicted,
                _ => (),
            }
        }
        LadderEnd::Complete
    }
}
