//! What a checker asks and what it gets (paper 01, What a call is given), and the part of a
//! response that searches and monitoring write alike.

use crate::log::Log;
use crate::log_tree::needed_nodes;
use crate::model::{
    Digest, Entry, Exchange, Kind, Lookup, Response, Settings, State, Step, Target,
};
use crate::obstacles;
use std::collections::BTreeMap;

/// A checker's question; the label is the state's (paper 01, What a call is given).
#[derive(Clone, Debug)]
pub struct Question {
    pub identifier: Vec<u8>,
    pub clock: u64,
    pub settings: Settings,
    /// What the checker kept; the nodes of the response follow from its size.
    pub state: State,
    /// The size n of the log to answer from, 1 up to the log's size.
    pub size: u64,
}

impl Question {
    /// A question at the time of the last entry, with the bytes 0 to 15 as identifier.
    pub fn at_last_entry(log: &Log, settings: Settings, state: State, size: u64) -> Question {
        Question {
            identifier: (0..16).collect(),
            clock: log.entry(size - 1).time,
            settings,
            state,
            size,
        }
    }
}

/// An exchange written by the rules, and every reason why it must be refused all the same.
#[derive(Clone, Debug)]
pub struct Answer {
    /// Its new state is the one the rules give for an acceptance, even where an obstacle stands.
    pub exchange: Exchange,
    /// Rising by number; none means that the exchange must be accepted.
    pub obstacles: Vec<Obstacle>,
}

impl Answer {
    /// The number the library must answer: 0 for acceptance, else the lowest of the obstacles'
    /// (paper 01, Sixteen numbers).
    pub fn expected(&self) -> u32 {
        self.obstacles
            .first()
            .map_or(0, |obstacle| obstacle.number())
    }

    /// The exchange if it must be accepted.
    pub fn accepted(self) -> Option<Exchange> {
        self.obstacles.is_empty().then_some(self.exchange)
    }
}

/// Why no response can be written at all.
#[derive(Clone, Copy, Debug, PartialEq, Eq)]
pub enum NoAnswer {
    /// The size is 0 or above the log's.
    NoEntries,
    /// No version of the label is in the tree of the last entry.
    NoVersion,
}

/// Why an answer must be refused although it is written as the rules ask (paper 01, Sixteen
/// numbers).
#[derive(Clone, Copy, Debug, PartialEq, Eq, PartialOrd, Ord)]
pub enum Obstacle {
    /// 1: an input is too long, or the identifier is not of its length.
    Length,
    /// 2: the settings are of another suite or mode.
    Configuration,
    /// 3: the state is not valid.
    State,
    /// 5: the value or a list of siblings is too long for its field.
    Field,
    /// 7: the size is above the limit or below the state's.
    Size,
    /// 8: the target is no version, or below one in the map.
    Target,
    /// 11: times fall, disagree with the kept time, or are out of the clock's bounds.
    Time,
    /// 12: a lookup shown does not lead to its entry's prefix root.
    Path,
    /// 13: ladders are not complete or ended early as a search needs, or monitoring misses a
    /// version.
    Ladder,
    /// 14: a value in the state is not the log's and something under it is shown.
    FullSubtree,
    /// 15: a value in the state is not the log's and nothing under it is shown.
    Root,
    /// 16: the new map would have too many entries.
    Map,
}

impl Obstacle {
    /// The refusal it must meet with (paper 01, Sixteen numbers).
    pub fn number(self) -> u32 {
        match self {
            Obstacle::Length => 1,
            Obstacle::Configuration => 2,
            Obstacle::State => 3,
            Obstacle::Field => 5,
            Obstacle::Size => 7,
            Obstacle::Target => 8,
            Obstacle::Time => 11,
            Obstacle::Path => 12,
            Obstacle::Ladder => 13,
            Obstacle::FullSubtree => 14,
            Obstacle::Root => 15,
            Obstacle::Map => 16,
        }
    }
}

/// What is particular to an answer: the entries shown, each with its lookups, and the new map.
pub(crate) struct Parts {
    pub target: Option<Target>,
    pub steps: Vec<Step>,
    /// The versions looked up at each position shown.
    pub lookups: BTreeMap<u64, Vec<u32>>,
    pub map: BTreeMap<u64, u32>,
}

impl Log {
    /// Refuses sizes that the log has not had.
    pub(crate) fn check_size(&self, question: &Question) -> Result<(), NoAnswer> {
        if (1..=self.size()).contains(&question.size) {
            return Ok(());
        }
        Err(NoAnswer::NoEntries)
    }

    /// The whole answer made of its parts (paper 01, Response lines and Sixteen numbers).
    pub(crate) fn answer(&self, question: &Question, parts: Parts) -> Answer {
        let label = &question.state.label;
        let kind = match parts.target {
            Some(_) => Kind::Search,
            None => Kind::Monitor,
        };
        let mut versions: Vec<u32> = parts.steps.iter().map(|step| step.version).collect();
        versions.sort();
        let shown: Vec<u64> = parts.lookups.keys().copied().collect();
        let response = Response {
            kind,
            identifier: question.identifier.clone(),
            label: label.clone(),
            size: question.size,
            target: parts.target,
            steps: parts.steps,
            entries: self.entries(label, &parts.lookups),
            nodes: self.nodes(question, &shown),
        };
        let map: Vec<(u64, u32)> = parts.map.into_iter().collect();
        let exchange = Exchange {
            kind,
            identifier: question.identifier.clone(),
            clock: question.clock,
            response,
            settings: question.settings.clone(),
            state: question.state.clone(),
            sheet: versions
                .into_iter()
                .map(|v| (v, self.output(label, v)))
                .collect(),
            root: self.root(question.size),
            new_state: self.state(label, question.size, &map),
        };
        Answer {
            obstacles: obstacles::of(self, &exchange),
            exchange,
        }
    }

    /// The entries shown with their lookups (paper 01, Response lines).
    fn entries(&self, label: &[u8], lookups: &BTreeMap<u64, Vec<u32>>) -> Vec<Entry> {
        let entry_of = |(&position, versions): (&u64, &Vec<u32>)| {
            let entry = self.entry(position);
            let lookup = |&version: &u32| {
                let (result, siblings) = entry.prefix_tree.lookup(&self.output(label, version));
                Lookup {
                    version,
                    result,
                    siblings,
                }
            };
            Entry {
                position,
                time: entry.time,
                prefix_root: entry.prefix_root,
                lookups: versions.iter().map(lookup).collect(),
            }
        };
        lookups.iter().map(entry_of).collect()
    }

    /// The values of the nodes that the checker lacks; one that is ahead of the answer is taken to
    /// have kept none (paper 01, Trees).
    fn nodes(&self, question: &Question, shown: &[u64]) -> Vec<Digest> {
        let old_size = match question.state.size {
            size if size <= question.size => size,
            _ => 0,
        };
        let needed = needed_nodes(question.size, old_size, shown);
        needed
            .into_iter()
            .map(|range| self.subtree_value(range))
            .collect()
    }
}
