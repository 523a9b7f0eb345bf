//! How many 64-byte blocks a checker hashes for a case that it does not refuse before it hashes
//! anything.

use crate::case::Case;
use crate::limits;
use crate::text::Lines;
use honest_log::log_tree::full_subtrees;
use honest_log::model::Kind;

/// Blocks of a hashed string: the padding takes a byte and the length eight.
fn of_string(length: usize) -> usize {
    (length + 9).div_ceil(64)
}

/// A leaf or parent of the prefix tree is 65 bytes (001 10.9).
const PREFIX_NODE: usize = 1 + 2 * limits::DIGEST;
/// A leaf of the log tree is 40 bytes, a parent 66 (001 10.8).
const LOG_LEAF: usize = 8 + limits::DIGEST;
const LOG_PARENT: usize = 2 + 2 * limits::DIGEST;

fn number(field: &[u8]) -> u64 {
    String::from_utf8_lossy(field).parse().unwrap_or(0)
}

/// The length of bytes written as hex.
fn length(field: Option<&Vec<u8>>) -> usize {
    field.map_or(0, |field| field.len() / 2)
}

/// The blocks of the lookups, the log tree and the commitment, as far as the lines can be read.
pub fn blocks(case: &Case) -> usize {
    let lines = Lines::read(&case.inputs.response);
    let lookups: usize = lines.0.iter().map(|line| lookup(line)).sum();
    lookups + log_tree(case, &lines) + commitment(case, &lines)
}

/// The leaf, unless the place is empty, and a parent for each sibling.
fn lookup(line: &[Vec<u8>]) -> usize {
    let leaves = match &line[0][..] {
        b"in" | b"nl" => 1,
        b"no" => 0,
        _ => return 0,
    };
    let siblings = length(line.last()) / limits::DIGEST;
    (leaves + siblings) * of_string(PREFIX_NODE)
}

/// The shown leaves, and the parents that join them with the nodes and with kept values under which
/// nothing is shown.
fn log_tree(case: &Case, lines: &Lines) -> usize {
    let position = |line: usize| lines.0[line].get(1).map_or(0, |field| number(field));
    let shown: Vec<u64> = lines.of("entry").into_iter().map(position).collect();
    let state = Lines::read(&case.inputs.state);
    let size = state
        .0
        .first()
        .and_then(|line| line.get(1))
        .map_or(0, |field| number(field));
    let taken = full_subtrees(size.min(limits::SIZE))
        .iter()
        .filter(|range| !shown.iter().any(|position| range.contains(position)))
        .count();
    let parts = shown.len() + lines.of("node").len() + taken;
    shown.len() * of_string(LOG_LEAF) + parts.saturating_sub(1) * of_string(LOG_PARENT)
}

/// HMAC's inner and outer string of the target's commitment (001 10.6).
fn commitment(case: &Case, lines: &Lines) -> usize {
    let Some(target) = lines.of("target").first().copied() else {
        return 0;
    };
    if case.inputs.kind == Kind::Monitor {
        return 0;
    }
    let label = length(lines.0[0].last());
    let value = length(lines.0[target].last());
    let text = limits::OPENING + 1 + label + 4 + value;
    of_string(64 + text) + of_string(64 + limits::DIGEST)
}
