//! The calls that a program in another language makes, on numbers and byte slices (paper 01, What
//! stands in the hub).

use crate::check::{accept, verify, Inputs, Verified};
use crate::hex;
use crate::ladder::{binary_ladder, Version};
use crate::limits;
use crate::refusal::Refusal;
use crate::response::Kind;
use crate::state::State;

/// What search, monitoring and the signed-text call are all given, by the paper's words.
pub struct Arguments<'a> {
    pub response: &'a [u8],
    pub settings: &'a [u8],
    /// The text of the state.
    pub state: &'a [u8],
    pub identifier: &'a [u8],
    pub clock: u64,
    pub sheet: &'a [u8],
}

/// How far left the length of the value stands in an answer, above the number's 8 bits.
const VALUE_LENGTH_SHIFT: u32 = 8;

/// How far left the length of the new state's text stands in an answer, above the value's 24 bits.
const STATE_LENGTH_SHIFT: u32 = 32;

/// Judges the answer to a search: acceptance writes value and new state from byte 0 and answers
/// both lengths, a refusal writes nothing and answers its number (paper 01, Sixteen numbers).
pub fn search(
    arguments: &Arguments,
    signed: &[u8],
    output: &mut [u8],
    new_state: &mut [u8],
) -> u64 {
    let room = output.len();
    match judge(Kind::Search, arguments, signed, room, new_state.len()) {
        Ok(verified) => write(&verified, output, new_state),
        Err(refusal) => refusal.number().into(),
    }
}

/// Judges the answer to monitoring: acceptance writes the new state from byte 0 and answers its
/// length, a refusal writes nothing and answers its number (paper 01, Sixteen numbers).
pub fn monitor(arguments: &Arguments, signed: &[u8], new_state: &mut [u8]) -> u64 {
    match judge(Kind::Monitor, arguments, signed, 0, new_state.len()) {
        Ok(verified) => write(&verified, &mut [], new_state),
        Err(refusal) => refusal.number().into(),
    }
}

/// Writes the text whose signature the chip has to approve into a buffer from an offset on, for a
/// search (kind 0) or monitoring (kind 1), and answers its length, or else the number of a refusal
/// (paper 01, Sixteen numbers, where this is the further call).
pub fn signed_text(kind: u32, arguments: &Arguments, buffer: &mut [u8], offset: u64) -> u64 {
    let kind = match kind {
        0 => Some(Kind::Search),
        1 => Some(Kind::Monitor),
        _ => None,
    };
    let written = signed_text_of(kind, arguments)
        .and_then(|text| write_from(&text, buffer, offset).ok_or(Refusal::Room));
    match written {
        Ok(length) => length as u64,
        Err(refusal) => refusal.number().into(),
    }
}

/// Writes the ladder of a version, four big-endian bytes for each, and answers how many there are,
/// 0 if it has none or there is too little room (paper 01, Ladder, search, monitoring).
pub fn ladder(version: u32, versions: &mut [u8]) -> u64 {
    let Some(target) = Version::new(version) else {
        return 0;
    };
    let ladder = binary_ladder(target);
    let (places, _) = versions.as_chunks_mut();
    if places.len() < ladder.len() {
        return 0;
    }
    for (place, version) in places.iter_mut().zip(&ladder) {
        *place = version.to_be_bytes();
    }
    ladder.len() as u64
}

/// The inputs of the inner check.
fn inputs<'a>(kind: Option<Kind>, arguments: &Arguments<'a>) -> Inputs<'a> {
    Inputs {
        response: arguments.response,
        configuration: arguments.settings,
        vrf_outputs: arguments.sheet,
        kind,
        identifier: arguments.identifier,
        clock: arguments.clock,
    }
}

/// Makes all checks of a search or of monitoring, with so much room lent for value and new state.
fn judge<'a>(
    kind: Kind,
    arguments: &Arguments<'a>,
    signed: &[u8],
    value_room: usize,
    state_room: usize,
) -> Result<Verified<'a>, Refusal> {
    Refusal::Length.unless(state_room >= limits::STATE_TEXT)?;
    let state = State::given(arguments.state)?;
    let inputs = inputs(Some(kind), arguments);
    accept(state.as_ref(), &inputs, signed, value_room)
}

/// Makes checks 1 to 14 and gives the text to be signed.
fn signed_text_of(kind: Option<Kind>, arguments: &Arguments) -> Result<Vec<u8>, Refusal> {
    let state = State::given(arguments.state)?;
    let inputs = inputs(kind, arguments);
    let verified = verify(state.as_ref(), &inputs)?;
    Ok(verified.signed_text(&inputs))
}

/// Writes a text into a buffer from an offset on and gives its length, if there is room.
fn write_from(text: &[u8], buffer: &mut [u8], offset: u64) -> Option<usize> {
    let start = usize::try_from(offset).ok()?;
    let part = buffer.get_mut(start..)?.get_mut(..text.len())?;
    part.copy_from_slice(text);
    Some(text.len())
}

/// Writes what an accepted call yields, for which there is room, and gives the answer.
fn write(verified: &Verified, output: &mut [u8], new_state: &mut [u8]) -> u64 {
    let value = verified.target.map_or(&[][..], |target| target.value);
    for (byte, &digits) in output.iter_mut().zip(value) {
        *byte = hex::byte(digits);
    }
    let text = verified.state.text();
    for (byte, &written) in new_state.iter_mut().zip(&text) {
        *byte = written;
    }
    (value.len() as u64) << VALUE_LENGTH_SHIFT | (text.len() as u64) << STATE_LENGTH_SHIFT
}

#[cfg(test)]
mod tests;
