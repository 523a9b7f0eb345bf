//! The allowed quantities (paper 01, What a call is given), in bytes where they are lengths.

/// The longest response that a call of the library takes.
pub const RESPONSE: usize = 1_048_576;

/// The longest response that the program takes.
pub const PROGRAM_RESPONSE: usize = 65_536;

/// The longest encoded configuration, which the paper calls settings.
pub const CONFIGURATION: usize = 2_048;

/// The longest signed text: a configuration, a tree size and a root.
pub const SIGNED_TEXT: usize = 2_088;

/// The longest list of VRF outputs, which the paper calls the sheet.
pub const VRF_OUTPUTS: usize = 36_864;

/// The longest label.
pub const LABEL: usize = 255;

/// The longest value.
pub const VALUE: usize = 1_024;

/// The largest tree size.
pub const TREE_SIZE: u64 = 1 << 40;

/// The most entries a monitoring map holds.
pub const MAP: usize = 48;

/// The most siblings a lookup lists.
pub const SIBLINGS: usize = 255;

/// The longest text of a state, and the room a call has to lend for a new one.
pub const STATE_TEXT: usize = 8_192;

/// The length of every request identifier.
pub const IDENTIFIER: usize = 16;

/// The longest request file of the program (paper 01, Sixteen numbers).
pub const REQUEST: usize = 128;
