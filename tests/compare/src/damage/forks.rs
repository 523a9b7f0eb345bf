//! Numbers 14 and 15 where the history is another one: what is shown under a kept value is compared
//! with it, what is not shown changes the root (paper 01, Trees).

use super::{Damage, Damages};
use crate::base::Base;
use crate::case::Case;
use crate::limits;
use honest_log::log_tree::{full_subtrees, needed_nodes};
use honest_log::Log;
use std::ops::Range;

/// The longest log that is written a second time entry by entry.
const LONGEST_SPLIT: u64 = 1_000;

/// 14 if something is shown under the range of a kept value, else 15.
fn judged(base: &Base, range: &Range<u64>) -> u8 {
    let under = base.shown().iter().any(|position| range.contains(position));
    if under {
        14
    } else {
        15
    }
}

pub fn damages(base: &Base) -> Vec<Damage> {
    let mut list = kept_values(base);
    list.extend(nodes(base));
    list
}

/// Kept values that are not the log's.
fn kept_values(base: &Base) -> Vec<Damage> {
    let ranges = full_subtrees(base.exchange.state.size);
    let mut list = Vec::new();
    for (at, range) in ranges.iter().enumerate() {
        let number = judged(base, range);
        list.on_exchange(
            number,
            format!("kept value {at} off by its first bit"),
            move |exchange| {
                exchange.state.values[at][0] ^= 0x80;
            },
        );
        list.on_exchange(
            number,
            format!("kept value {at} off by its last bit"),
            move |exchange| {
                exchange.state.values[at][31] ^= 1;
            },
        );
        list.on_exchange(
            number,
            format!("kept value {at} all zero"),
            move |exchange| {
                exchange.state.values[at] = [0; limits::DIGEST];
            },
        );
    }
    for at in 1..ranges.len() {
        let number = judged(base, &ranges[at]).min(judged(base, &ranges[at - 1]));
        list.on_exchange(
            number,
            format!("kept values {} and {at} swapped", at - 1),
            move |exchange| {
                exchange.state.values.swap(at - 1, at);
            },
        );
    }
    list
}

/// Nodes that are not the log's: under a kept value that is worked out, or elsewhere.
fn nodes(base: &Base) -> Vec<Damage> {
    let old_size = base.exchange.state.size;
    let kept = full_subtrees(old_size);
    let ranges = needed_nodes(base.exchange.response.size, old_size, &base.shown());
    let judged = |range: &Range<u64>| {
        let under = kept
            .iter()
            .any(|kept| kept.start <= range.start && range.end <= kept.end);
        if under {
            14
        } else {
            15
        }
    };
    let mut list = Vec::new();
    for (at, range) in ranges.iter().enumerate() {
        let number = judged(range);
        list.on_exchange(number, format!("node {at} off by a bit"), move |exchange| {
            exchange.response.nodes[at][16] ^= 1;
        });
        list.on_exchange(number, format!("node {at} all zero"), move |exchange| {
            exchange.response.nodes[at] = [0; limits::DIGEST];
        });
    }
    for at in 1..ranges.len() {
        if base.exchange.response.nodes[at] == base.exchange.response.nodes[at - 1] {
            continue;
        }
        let number = judged(&ranges[at]).min(judged(&ranges[at - 1]));
        list.on_exchange(
            number,
            format!("nodes {} and {at} swapped", at - 1),
            move |exchange| {
                exchange.response.nodes.swap(at - 1, at);
            },
        );
    }
    list
}

/// Logs that changed an old entry after it was kept, and logs that differ from the kept one in all
/// that follows.
pub fn cases(base: &Base) -> Vec<Case> {
    let state = &base.exchange.state;
    let kept = full_subtrees(state.size);
    let mut list = Vec::new();
    let mut places = base.shown();
    places.extend([
        0,
        1,
        state.size / 2,
        state.size.saturating_sub(2),
        state.size.saturating_sub(1),
    ]);
    places.sort();
    places.dedup();
    for position in places {
        let Some(range) = kept.iter().find(|range| range.contains(&position)) else {
            continue;
        };
        let time = base.log.entry(position).time;
        let Some(earlier) = time.checked_sub(1) else {
            continue;
        };
        if position > 0 && base.log.entry(position - 1).time > earlier {
            continue;
        }
        let log = base.log.with_time(position, earlier);
        if let Some(exchange) = base.asked_with(state.clone(), &log) {
            let name = format!("{}: entry {position} changed after it was kept", base.name);
            list.push(Case::of(name, judged(base, range), &exchange));
        }
    }
    list.extend(split(base));
    list
}

/// The log up to an entry and from there on with earlier times, where times leave room for that.
fn continued_otherwise(base: &Base, from: u64) -> Log {
    let state = &base.exchange.state;
    let mut other = base.log.truncated(from);
    for position in from..base.response().size {
        let mut entry = base.log.entry(position).clone();
        let before = position
            .checked_sub(1)
            .map_or(0, |last| other.entry(last).time);
        let kept = if position < state.size { 0 } else { state.time };
        entry.time = entry.time.saturating_sub(1).max(before).max(kept);
        other.append_entries(entry, 1);
    }
    other
}

/// The kept log and the answering one part at an entry: before the old size a kept value shows it,
/// from it on nothing does.
fn split(base: &Base) -> Vec<Case> {
    let (state, size) = (&base.exchange.state, base.response().size);
    let mut places = vec![
        0,
        1,
        state.size / 2,
        state.size.saturating_sub(1),
        state.size,
    ];
    places.retain(|from| *from <= state.size && *from < size && size <= LONGEST_SPLIT);
    places.sort();
    places.dedup();
    let mut list = Vec::new();
    for from in places {
        let other = continued_otherwise(base, from);
        let kept = full_subtrees(state.size).into_iter();
        let differing = kept.filter(|range| differ(base, &other, range));
        let number = differing
            .map(|range| judged(base, &range))
            .min()
            .unwrap_or(0);
        if let Some(exchange) = base.asked_with(state.clone(), &other) {
            let name = format!("{}: another log from entry {from} on", base.name);
            list.push(Case::of(name, number, &exchange));
        }
    }
    list
}

/// Whether two logs have different entries in a range.
fn differ(base: &Base, other: &Log, range: &Range<u64>) -> bool {
    range.clone().any(|position| {
        let (left, right) = (base.log.entry(position), other.entry(position));
        left.time != right.time || left.prefix_root != right.prefix_root
    })
}
