//! What paper 01 allows (the table of What a call is given, and the length of state texts).

use std::ops::RangeInclusive;

pub const RESPONSE: usize = 1_048_576;
pub const SETTINGS: usize = 2_048;
pub const SHEET: usize = 36_864;
pub const STATE_TEXT: usize = 8_192;
pub const IDENTIFIER: usize = 16;
pub const LABEL: usize = 255;
pub const VALUE: usize = 1_024;
pub const SIZES: RangeInclusive<u64> = 1..=1 << 40;
pub const GREATEST_VERSION: u32 = u32::MAX - 1;
pub const MAP: usize = 48;
pub const SIBLINGS: usize = 255;
/// The only suite and the only mode that pass (paper 01, What stands in the hub).
pub const SUITE: u16 = 1;
pub const MODE: u8 = 1;
