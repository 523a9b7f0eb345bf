//! The program: judges the files of the current directory and prints one line (paper 01, Sixteen
//! numbers).

use std::fs::{self, File};
use std::io::{self, Read, Write};
use std::process::ExitCode;

use second::limits;
use second::program::{refused, verdict, Files, Outcome};

/// Judges the files; a line on standard output and exit status 0 go together.
fn main() -> ExitCode {
    let files = Files {
        request: read("request", limits::REQUEST),
        response: read("response", limits::PROGRAM_RESPONSE),
        settings: read("settings", limits::CONFIGURATION),
        state: read("state", limits::STATE_TEXT),
        sheet: read("sheet", limits::VRF_OUTPUTS),
        signed: read("signed", limits::SIGNED_TEXT),
    };
    let outcome = verdict(&files).unwrap_or_else(|refusal| {
        explain(format_args!("refused: {}", refusal.sentence()));
        refused(refusal)
    });
    match report(&outcome) {
        Ok(()) => ExitCode::SUCCESS,
        Err(error) => {
            explain(format_args!("no result: {error}"));
            ExitCode::FAILURE
        }
    }
}

/// Says something to people; if nobody can hear it, that changes nothing.
fn explain(words: std::fmt::Arguments) {
    let _ = writeln!(io::stderr(), "{words}");
}

/// Reads a file, of which one byte beyond the limit is enough to see that it is too long.
fn read(name: &str, limit: usize) -> Option<Vec<u8>> {
    let mut bytes = Vec::new();
    let file = File::open(name).ok()?;
    file.take(limit as u64 + 1).read_to_end(&mut bytes).ok()?;
    Some(bytes)
}

/// Writes the files of an acceptance, the value first and the state last, and then prints the line.
fn report(outcome: &Outcome) -> io::Result<()> {
    if let Some(value) = &outcome.value {
        replace("value", value)?;
    }
    if let Some(state) = &outcome.state {
        replace("state.new", state)?;
    }
    let mut output = io::stdout().lock();
    output.write_all(&outcome.line)?;
    output.flush()
}

/// Puts a file in its place by renaming a finished draft, so that it is never there in part.
fn replace(name: &str, bytes: &[u8]) -> io::Result<()> {
    let draft = format!("{name}.part");
    let written = write_whole(&draft, bytes).and_then(|()| fs::rename(&draft, name));
    if written.is_err() {
        let _ = fs::remove_file(&draft);
    }
    written.map_err(|error| io::Error::new(error.kind(), format!("{name}: {error}")))
}

/// Writes a file so that it is on the disk before its name is.
fn write_whole(name: &str, bytes: &[u8]) -> io::Result<()> {
    let mut file = File::create(name)?;
    file.write_all(bytes)?;
    file.sync_all()
}
