//! The limits of paper 01 (What a call is given).

pub const RESPONSE: usize = 1_048_576;
/// The program reads shorter responses than the library.
pub const PROGRAM_RESPONSE: usize = 65_536;
pub const SETTINGS: usize = 2_048;
pub const SIGNED: usize = 2_088;
pub const SHEET: usize = 36_864;
/// A version and its VRF output.
pub const RECORD: usize = 36;
pub const STATE: usize = 8_192;
pub const REQUEST: usize = 128;
pub const IDENTIFIER: usize = 16;
pub const OPENING: usize = 16;
pub const DIGEST: usize = 32;
pub const LABEL: usize = 255;
pub const VALUE: usize = 1_024;
pub const SIZE: u64 = 1 << 40;
/// The greatest version of a target or a pair; a ladder may hold one more.
pub const VERSION: u32 = u32::MAX - 1;
pub const PAIRS: usize = 48;
pub const SIBLINGS: usize = 255;
