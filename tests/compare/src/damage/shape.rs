//! Number 9: steps, their commitments, entries or nodes that are not the asked ones (paper 01,
//! Ladder, search, monitoring).

use super::{Damage, Damages};
use crate::base::Base;
use crate::limits;
use honest_log::ladder::binary_ladder;
use honest_log::model::{Digest, Kind, Step};

const COMMITMENT: Digest = [0x44; limits::DIGEST];

pub fn damages(base: &Base) -> Vec<Damage> {
    let mut list = steps(base);
    list.extend(more_steps());
    list.extend(entries(base));
    list.extend(more_entries(base));
    list.extend(nodes(base));
    if let Some(found) = base.found() {
        list.extend(commitments(base, found));
        list.extend(other_ladders(found));
    }
    list
}

/// Steps left out, doubled, swapped, of another version.
fn steps(base: &Base) -> Vec<Damage> {
    let mut list = Vec::new();
    let count = base.response().steps.len();
    for at in 0..count {
        list.on_response(format!("step {at} left out"), move |response| {
            response.steps.remove(at);
        });
        list.on_response(format!("step {at} doubled"), move |response| {
            response.steps.insert(at, response.steps[at].clone());
        });
        list.on_response(format!("step {at} of another version"), move |response| {
            response.steps[at].version ^= 0x0100_0000;
        });
    }
    for at in 1..count {
        let name = format!("steps {} and {at} swapped", at - 1);
        list.on_response(name, move |response| response.steps.swap(at - 1, at));
    }
    if count > 0 {
        list.on_response("no steps", |response| response.steps.clear());
    }
    list
}

/// A step that belongs to no ladder or lookup.
fn more_steps() -> Vec<Damage> {
    let step = |version: u32, commitment: Option<Digest>| Step {
        version,
        commitment,
    };
    let steps = [
        step(u32::MAX, None),
        step(u32::MAX, Some(COMMITMENT)),
        step(1 << 20, Some(COMMITMENT)),
    ];
    let mut list = Vec::new();
    for step in steps {
        let name = format!("one more line {:?}", step.line());
        list.on_response(name, move |response| response.steps.push(step.clone()));
    }
    list
}

/// Entries left out, doubled, swapped, at another position.
pub fn entries(base: &Base) -> Vec<Damage> {
    let mut list = Vec::new();
    let count = base.response().entries.len();
    for at in 0..count {
        list.on_response(format!("entry {at} left out"), move |response| {
            response.entries.remove(at);
        });
        list.on_response(format!("entry {at} doubled"), move |response| {
            response.entries.insert(at, response.entries[at].clone());
        });
        list.on_response(format!("entry {at} one position on"), move |response| {
            response.entries[at].position += 1;
        });
        list.on_response(format!("entry {at} far off"), move |response| {
            response.entries[at].position ^= 1 << 39;
        });
    }
    for at in 1..count {
        let name = format!("entries {} and {at} swapped", at - 1);
        list.on_response(name, move |response| response.entries.swap(at - 1, at));
    }
    list.on_response("no entries", |response| response.entries.clear());
    list.on_response("no entries and no nodes", |response| {
        response.entries.clear();
        response.nodes.clear();
    });
    list
}

/// A true entry of the log that nobody asked for, at its place.
fn more_entries(base: &Base) -> Vec<Damage> {
    let size = base.response().size;
    let shown = base.shown();
    let mut positions = vec![0, 1, size / 2, size.saturating_sub(2)];
    positions.retain(|position| *position < size && !shown.contains(position));
    positions.sort();
    positions.dedup();
    let mut list = Vec::new();
    for position in positions {
        let mut more = base.entry(position);
        if base.exchange.kind == Kind::Search {
            more.lookups.push(base.lookup(position, 0));
        }
        let place = shown.partition_point(|other| *other < position);
        list.on_response(format!("entry {position} shown too"), move |response| {
            response.entries.insert(place, more.clone());
        });
    }
    let mut last = base.entry(size - 1);
    last.position = size;
    list.on_response("entry past the last one", move |response| {
        response.entries.push(last.clone());
    });
    list
}

/// One node more or fewer, wherever it stands.
pub fn nodes(base: &Base) -> Vec<Damage> {
    let count = base.response().nodes.len();
    let mut list = Vec::new();
    for at in 0..count {
        list.on_response(format!("node {at} left out"), move |response| {
            response.nodes.remove(at);
        });
        list.on_response(format!("node {at} doubled"), move |response| {
            response.nodes.insert(at, response.nodes[at]);
        });
    }
    if count > 0 {
        list.on_response("no nodes", |response| response.nodes.clear());
    }
    for spare in [1, 2, 40] {
        let name = format!("{spare} spare nodes of zero bytes");
        list.on_response(name, move |response| {
            response.nodes.extend(vec![[0; limits::DIGEST]; spare]);
        });
    }
    list.on_response("a spare node before the others", |response| {
        response.nodes.insert(0, COMMITMENT);
    });
    list
}

/// In a search commitments stand below the target and nowhere else.
fn commitments(base: &Base, found: u32) -> Vec<Damage> {
    let mut list = Vec::new();
    for (at, step) in base.response().steps.iter().enumerate() {
        let version = step.version;
        if version < found {
            list.on_response(format!("no commitment at {version}"), move |response| {
                response.steps[at].commitment = None;
            });
        } else {
            list.on_response(format!("a commitment at {version}"), move |response| {
                response.steps[at].commitment = Some(COMMITMENT);
            });
        }
    }
    list
}

/// The steps of a search for a neighbouring target.
fn other_ladders(found: u32) -> Vec<Damage> {
    let mut others = vec![
        0,
        found.saturating_sub(1),
        found.saturating_add(1),
        found | 1,
    ];
    others
        .retain(|other| *other <= limits::VERSION && binary_ladder(*other) != binary_ladder(found));
    others.sort();
    others.dedup();
    let mut list = Vec::new();
    for other in others {
        list.on_response(format!("ladder of {other} for {found}"), move |response| {
            let step = |version: u32| Step {
                version,
                commitment: (version < found).then_some(COMMITMENT),
            };
            response.steps = binary_ladder(other).into_iter().map(step).collect();
        });
    }
    list
}
