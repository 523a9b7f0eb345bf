//! A call with all its inputs, as bytes, and the answer that is known from how it was made.

use honest_log::model::Kind;
pub use second::program::Files;

#[derive(Clone, Debug, PartialEq, Eq)]
pub struct Inputs {
    pub kind: Kind,
    pub identifier: Vec<u8>,
    pub clock: u64,
    pub response: Vec<u8>,
    pub settings: Vec<u8>,
    /// The state's text.
    pub state: Vec<u8>,
    pub sheet: Vec<u8>,
    pub signed: Vec<u8>,
}

#[derive(Clone, Debug, PartialEq, Eq)]
pub enum Answer {
    Accepted(Acceptance),
    /// The number of the refusal.
    Refused(u8),
}

#[derive(Clone, Debug, PartialEq, Eq)]
pub struct Acceptance {
    /// Of a search, the version found.
    pub version: Option<u32>,
    pub size: u64,
    pub pairs: usize,
    /// The text of the new state.
    pub state: Vec<u8>,
    /// Of a search, the value.
    pub value: Option<Vec<u8>>,
}

/// A call of the library; the program is given the same inputs as files.
#[derive(Clone, Debug, PartialEq, Eq)]
pub struct Case {
    /// What it is, in a few words.
    pub name: String,
    pub inputs: Inputs,
    /// The bytes lent for the value.
    pub room: usize,
    /// The library's answer, where it is known from how the case was made.
    pub answer: Option<Answer>,
}

/// A run of the program that is no call of the library: files missing, too long, a broken request line.
#[derive(Clone, Debug)]
pub struct Folder {
    pub name: String,
    pub files: Files,
    pub answer: Option<Answer>,
}
