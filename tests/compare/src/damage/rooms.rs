//! Number 16: too little room for the value, and a map that would need a 49th pair (paper 01,
//! Sixteen numbers).

use super::{Damage, Damages};
use crate::base::{question, Base};
use crate::case::Case;
use crate::honest::answer;
use crate::honest::maps::plain_log;
use crate::limits;
use honest_log::model::Kind;
use honest_log::search_tree::frontier;
use honest_log::Log;

/// The bytes lent for the value: as many as it has, one more, fewer, none; monitoring needs none.
pub fn damages(base: &Base) -> Vec<Damage> {
    let Some(target) = &base.exchange.response.target else {
        return vec![Damage::on_room(0, "monitoring without room", 0)];
    };
    let length = target.value.len();
    let mut list = vec![
        Damage::on_room(0, "room as long as the value", length),
        Damage::on_room(0, "room one longer than the value", length + 1),
    ];
    let mut short: Vec<usize> = vec![0, 1, length / 2, length.saturating_sub(1)];
    short.retain(|room| *room < length);
    short.sort();
    short.dedup();
    for room in short {
        list.on_room(16, format!("room of {room} for a value of {length}"), room);
    }
    list
}

/// Full maps over a log of 200 entries, of one pair fewer and of one too many.
pub fn fixed_cases() -> Vec<Case> {
    let log = plain_log();
    let mut list = Vec::new();
    for size in [100, 120, 128, 150, 160, 199] {
        for count in [limits::PAIRS - 1, limits::PAIRS, limits::PAIRS + 1] {
            list.extend(full_map(&log, size, count, false));
            list.extend(full_map(&log, size, count, true));
        }
    }
    list
}

/// A search and a monitoring with so many pairs, the search's first complete entry being one of
/// them or a new one; such a map may be too long already, and only a search makes it longer.
fn full_map(log: &Log, size: u64, count: usize, with_first: bool) -> Vec<Case> {
    let old_size = size - size % 10;
    let found = log.greatest_version(b"pitch", size).unwrap_or(0);
    let complete = |position: &u64| log.has_version(b"pitch", found, *position);
    let first = frontier(size).into_iter().find(complete).unwrap_or(size);
    if with_first && first >= old_size {
        return Vec::new();
    }
    let mut positions: Vec<u64> = (0..old_size)
        .filter(|position| *position != first)
        .collect();
    positions.truncate(if with_first { count - 1 } else { count });
    positions.extend(with_first.then_some(first));
    positions.sort();
    let pairs: Vec<(u64, u32)> = positions.iter().map(|position| (*position, 0)).collect();
    let question = question(log, b"pitch", old_size, &pairs, size);
    let after = if with_first { count } else { count + 1 };
    let numbers = match (count > limits::PAIRS, after > limits::PAIRS) {
        (true, _) => [3, 3],
        (false, true) => [16, 0],
        (false, false) => [0, 0],
    };
    let which = if with_first { "an old" } else { "a new" };
    let kinds = [Kind::Search, Kind::Monitor].into_iter().zip(numbers);
    kinds
        .filter_map(|(kind, number)| {
            let answer = answer(log, kind, &question)?;
            let name = format!(
                "{} of {size} with {count} pairs and {which} position",
                kind.word()
            );
            Some(Case::of(name, number, &answer.exchange))
        })
        .collect()
}
