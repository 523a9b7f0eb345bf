//! What stands against accepting an exchange that the log wrote (paper 01, Sixteen numbers), told
//! from what the log knows of itself. Numbers that an answer written here never meets are left out:
//! 4, 6, 9 and 10 speak of other entries, nodes, versions or names than those asked for.

use crate::answer::Obstacle;
use crate::limits;
use crate::log::Log;
use crate::log_tree::full_subtrees;
use crate::model::{Entry, Exchange, LookupResult, State};
use crate::search::LadderEnd;

/// The obstacles of an exchange, by rising number.
pub(crate) fn of(log: &Log, exchange: &Exchange) -> Vec<Obstacle> {
    let stands = [
        (Obstacle::Length, length(exchange)),
        (Obstacle::Configuration, configuration(exchange)),
        (Obstacle::State, !is_valid(&exchange.state)),
        (Obstacle::Field, field(exchange)),
        (Obstacle::Size, size(exchange)),
        (Obstacle::Target, target(exchange)),
        (Obstacle::Time, time(exchange)),
        (Obstacle::Path, path(log, exchange)),
        (Obstacle::Ladder, ladder(log, exchange)),
        (Obstacle::FullSubtree, full_subtree(log, exchange, true)),
        (Obstacle::Root, full_subtree(log, exchange, false)),
        (Obstacle::Map, map(exchange)),
    ];
    stands
        .into_iter()
        .filter(|(_, stands)| *stands)
        .map(|(obstacle, _)| obstacle)
        .collect()
}

/// Number 1: an input over its length, or an identifier of another one.
fn length(exchange: &Exchange) -> bool {
    exchange.response.text().len() > limits::RESPONSE
        || exchange.settings.bytes().len() > limits::SETTINGS
        || exchange.sheet_bytes().len() > limits::SHEET
        || exchange.state.text().len() > limits::STATE_TEXT
        || exchange.identifier.len() != limits::IDENTIFIER
}

/// Number 2: another suite or mode.
fn configuration(exchange: &Exchange) -> bool {
    (exchange.settings.suite, exchange.settings.mode) != (limits::SUITE, limits::MODE)
}

/// Whether a state is valid (paper 01, What a call is given).
fn is_valid(state: &State) -> bool {
    let positions = || state.pairs.iter().map(|pair| pair.0);
    state.label.len() <= limits::LABEL
        && state.size <= *limits::SIZES.end()
        && (state.size > 0 || state.time == 0)
        && state.values.len() == state.size.count_ones() as usize
        && state.pairs.len() <= limits::MAP
        && positions().is_sorted_by(|left, right| left < right)
        && positions().all(|position| position < state.size)
        && state
            .pairs
            .iter()
            .all(|pair| pair.1 <= limits::GREATEST_VERSION)
}

/// Number 5, as far as lengths of fields go.
fn field(exchange: &Exchange) -> bool {
    let response = &exchange.response;
    let mut lookups = response.entries.iter().flat_map(|entry| &entry.lookups);
    response.label.len() > limits::LABEL
        || response
            .target
            .as_ref()
            .is_some_and(|target| target.value.len() > limits::VALUE)
        || lookups.any(|lookup| lookup.siblings.len() > limits::SIBLINGS)
}

/// Number 7: a size above the limit or below the state's.
fn size(exchange: &Exchange) -> bool {
    let size = exchange.response.size;
    !limits::SIZES.contains(&size) || size < exchange.state.size
}

/// Number 8: a target that is no version, or below a version in the map.
fn target(exchange: &Exchange) -> bool {
    exchange.response.target.as_ref().is_some_and(|target| {
        let mut map_versions = exchange.state.pairs.iter().map(|pair| pair.1);
        target.version > limits::GREATEST_VERSION || map_versions.any(|v| target.version < v)
    })
}

/// Number 11: times that fall, do not fit the kept one, or are out of the clock's bounds.
fn time(exchange: &Exchange) -> bool {
    let (entries, state) = (&exchange.response.entries, &exchange.state);
    let misfits = |entry: &Entry| match entry.position < state.size {
        true => entry.time > state.time,
        false => entry.time < state.time,
    };
    let wide = u128::from;
    let (clock, last) = (exchange.clock, exchange.new_state.time);
    !entries.is_sorted_by_key(|entry| entry.time)
        || entries.iter().any(misfits)
        || wide(last) > wide(clock) + wide(exchange.settings.max_ahead)
        || wide(clock) > wide(last) + wide(exchange.settings.max_behind)
}

/// Number 12: an entry whose root is not its tree's, or a leaf with another commitment than its
/// step's; what a search shows above the target is not tried.
fn path(log: &Log, exchange: &Exchange) -> bool {
    let label = &exchange.state.label;
    let target = exchange
        .response
        .target
        .as_ref()
        .map_or(u32::MAX, |target| target.version);
    let fails = |entry: &Entry| {
        let prefix_tree = &log.entry(entry.position).prefix_tree;
        let tried = |version: u32, result: &LookupResult| {
            version <= target && *result == LookupResult::Inclusion
        };
        let differs = |version: u32| {
            let in_tree = prefix_tree.commitment(&log.output(label, version));
            in_tree != Some(log.commitment(label, version))
        };
        let mut lookups = entry.lookups.iter();
        entry.prefix_root != prefix_tree.root() && !entry.lookups.is_empty()
            || lookups
                .any(|lookup| tried(lookup.version, &lookup.result) && differs(lookup.version))
    };
    exchange.response.entries.iter().any(fails)
}

/// Number 13: in a search, ladders other than first early-ended, then complete, with a complete one
/// at the end; in monitoring, a version that is not there.
fn ladder(log: &Log, exchange: &Exchange) -> bool {
    let entries = &exchange.response.entries;
    let label = &exchange.state.label;
    match &exchange.response.target {
        Some(target) => {
            let end_at = |entry: &Entry| log.ladder_end(label, target.version, entry.position);
            let ends: Vec<LadderEnd> = entries.iter().map(end_at).collect();
            let early = ends
                .iter()
                .take_while(|end| **end == LadderEnd::Early)
                .count();
            let rest = &ends[early..];
            rest.is_empty() || rest.iter().any(|end| *end != LadderEnd::Complete)
        }
        None => entries.iter().any(|entry| {
            let missing = |version| !log.has_version(label, version, entry.position);
            entry.lookups.iter().any(|lookup| missing(lookup.version))
        }),
    }
}

/// Numbers 14 and 15: a value in the state that is not the log's, with something shown under it or
/// with nothing.
fn full_subtree(log: &Log, exchange: &Exchange, shown: bool) -> bool {
    let state = &exchange.state;
    if state.size > exchange.response.size {
        return false;
    }
    let entries = &exchange.response.entries;
    full_subtrees(state.size)
        .iter()
        .zip(&state.values)
        .any(|(range, value)| {
            *value != log.subtree_value(range.clone())
                && shown == entries.iter().any(|entry| range.contains(&entry.position))
        })
}

/// Number 16, as far as the map goes.
fn map(exchange: &Exchange) -> bool {
    exchange.response.target.is_some() && exchange.new_state.pairs.len() > limits::MAP
}
