//! The sixteen numbers on the worked example, each by several faults (paper 01, Sixteen numbers).

mod inputs;
mod lookups;
mod order;
mod results;
mod shape;
mod times;

use crate::example::{
    complete_at_entry_1, first_search, full_map, hex, log, monitoring, quiet_search, second_search,
    sheet, Example, Log, OUTPUTS,
};
use crate::limits;
use crate::response::Kind;

/// The hex of the commitment that all examples give for version 0.
fn commitment0() -> String {
    hex(&log().commitments[0])
}

/// Puts a part of the second search's response in another's place and gives the number.
fn second_with(part: &str, other: &str) -> u64 {
    second_search().with(part, other).number()
}

/// The same for monitoring.
fn monitoring_with(part: &str, other: &str) -> u64 {
    monitoring().with(part, other).number()
}
