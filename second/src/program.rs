//! What the program makes of its files (paper 01, Sixteen numbers).

use crate::check::{accept, Inputs, Verified};
use crate::hex;
use crate::limits;
use crate::lines::{self, Reader};
use crate::refusal::Refusal;
use crate::response::Kind;
use crate::state::State;

/// The files of the program's folder: none where one is missing or can't be read, and more bytes
/// than its limit where one is too long.
#[derive(Clone, Debug)]
pub struct Files {
    pub request: Option<Vec<u8>>,
    pub response: Option<Vec<u8>>,
    pub settings: Option<Vec<u8>>,
    pub state: Option<Vec<u8>>,
    pub sheet: Option<Vec<u8>>,
    pub signed: Option<Vec<u8>>,
}

/// What the program does: the line it prints and, on acceptance, the files it writes.
#[derive(Clone, Debug, PartialEq, Eq)]
pub struct Outcome {
    /// The line for standard output, with its end.
    pub line: Vec<u8>,
    /// What `state.new` gets.
    pub state: Option<Vec<u8>>,
    /// What `value` gets.
    pub value: Option<Vec<u8>>,
}

/// A request line: the kind asked for, the identifier and the clock.
struct Request {
    kind: Option<Kind>,
    identifier: [u8; limits::IDENTIFIER],
    clock: u64,
}

impl Request {
    /// What a broken line asks for: no known kind, so that no response answers it (6).
    const BROKEN: Request = Request {
        kind: None,
        identifier: [0; limits::IDENTIFIER],
        clock: 0,
    };

    /// Reads a request, which is refused if only its identifier's length is wrong (1).
    fn read(text: &[u8]) -> Result<Self, Refusal> {
        let Some((kind, identifier, clock)) = request_line(text) else {
            return Ok(Self::BROKEN);
        };
        match hex::decode_all(identifier).try_into() {
            Ok(identifier) => Ok(Request {
                kind: Some(kind),
                identifier,
                clock,
            }),
            Err(_) => Err(Refusal::Length),
        }
    }
}

/// Reads the three fields of a request, or nothing if it is not one line of that form.
fn request_line(text: &[u8]) -> Option<(Kind, &[hex::Digits], u64)> {
    let mut reader = Reader::new(text);
    let kind = if reader.skip(b"search\t") {
        Kind::Search
    } else if reader.skip(b"monitor\t") {
        Kind::Monitor
    } else {
        return None;
    };
    let identifier = reader.bytes(limits::REQUEST)?;
    reader.tab()?;
    let clock = reader.number()?;
    reader.end_of_line()?;
    reader.is_at_end().then_some((kind, identifier, clock))
}

/// Judges the files and says what the program does (paper 01, Sixteen numbers).
pub fn judge(files: &Files) -> Outcome {
    verdict(files).unwrap_or_else(refused)
}

/// Makes all checks on the files and says what the program does on acceptance.
pub fn verdict(files: &Files) -> Result<Outcome, Refusal> {
    let request = present(&files.request)?;
    let response = present(&files.response)?;
    let configuration = present(&files.settings)?;
    let state = present(&files.state)?;
    let vrf_outputs = present(&files.sheet)?;
    let signed = present(&files.signed)?;
    Refusal::Length.unless(request.len() <= limits::REQUEST)?;
    Refusal::Length.unless(response.len() <= limits::PROGRAM_RESPONSE)?;
    let request = Request::read(request)?;
    let state = State::given(state)?;
    let inputs = Inputs {
        response,
        configuration,
        vrf_outputs,
        kind: request.kind,
        identifier: &request.identifier,
        clock: request.clock,
    };
    let verified = accept(state.as_ref(), &inputs, signed, limits::VALUE)?;
    Ok(accepted(&verified))
}

/// The bytes of a file that has to be there.
fn present(file: &Option<Vec<u8>>) -> Result<&[u8], Refusal> {
    file.as_deref().ok_or(Refusal::Length)
}

/// What the program does on acceptance.
fn accepted(verified: &Verified) -> Outcome {
    let state = &verified.state;
    let mut line = b"yes".to_vec();
    match verified.target {
        Some(target) => lines::push_number(&mut line, target.version.into()),
        None => lines::push_absent(&mut line),
    }
    lines::push_number(&mut line, state.size);
    lines::push_number(&mut line, state.map.len() as u64);
    lines::push_end(&mut line);
    Outcome {
        line,
        state: Some(state.text()),
        value: verified.target.map(|target| hex::decode_all(target.value)),
    }
}

/// What the program does on a refusal.
pub fn refused(refusal: Refusal) -> Outcome {
    let mut line = b"no".to_vec();
    lines::push_number(&mut line, refusal.number().into());
    lines::push_end(&mut line);
    Outcome {
        line,
        state: None,
        value: None,
    }
}

#[cfg(test)]
mod tests;
