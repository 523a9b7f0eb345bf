//! Runs a program as paper 01 describes it in a fresh folder, and compares what it prints and leaves with what it should.

use crate::case::{Acceptance, Answer, Files};
use std::collections::BTreeMap;
use std::fs;
use std::io;
use std::path::Path;
use std::process::{Command, Stdio};

/// A folder's files by name.
type Contents = BTreeMap<String, Vec<u8>>;

/// What the second program answers.
pub fn plain(files: &Files) -> Answer {
    let outcome = second::program::judge(files);
    let line = String::from_utf8(outcome.line).expect("the second program prints text");
    let fields: Vec<&str> = line.trim_end_matches('\n').split('\t').collect();
    match (&fields[..], outcome.state) {
        (["no", number], None) => Answer::Refused(number.parse().expect("a number")),
        (["yes", version, size, pairs], Some(state)) => Answer::Accepted(Acceptance {
            version: version.parse().ok(),
            size: size.parse().expect("a size"),
            pairs: pairs.parse().expect("a number of pairs"),
            state,
            value: outcome.value,
        }),
        _ => panic!("the second program printed {line:?}"),
    }
}

/// The line that paper 01 has for an answer.
pub fn line(answer: &Answer) -> String {
    match answer {
        Answer::Refused(number) => format!("no\t{number}\n"),
        Answer::Accepted(a) => {
            let version = a
                .version
                .map_or("-".to_string(), |version| version.to_string());
            format!("yes\t{version}\t{}\t{}\n", a.size, a.pairs)
        }
    }
}

/// What is in the folder before: the files given, and, if asked for, what an earlier call may have left and a file that
/// is none of the program's.
fn before(files: &Files, old: bool) -> Contents {
    let given = [
        ("request", &files.request),
        ("response", &files.response),
        ("settings", &files.settings),
        ("state", &files.state),
        ("sheet", &files.sheet),
        ("signed", &files.signed),
    ];
    let mut contents = Contents::new();
    for (name, file) in given {
        if let Some(bytes) = file {
            contents.insert(name.to_string(), bytes.clone());
        }
    }
    if old {
        for name in ["state.new", "value", "notes"] {
            contents.insert(name.to_string(), vec![b'o'; 9_000]);
        }
    }
    contents
}

/// What must be there afterwards.
fn after(mut contents: Contents, answer: &Answer) -> Contents {
    if let Answer::Accepted(acceptance) = answer {
        contents.insert("state.new".to_string(), acceptance.state.clone());
        if let Some(value) = &acceptance.value {
            contents.insert("value".to_string(), value.clone());
        }
    }
    contents
}

fn write(folder: &Path, contents: &Contents) -> io::Result<()> {
    fs::create_dir_all(folder)?;
    for (name, bytes) in contents {
        fs::write(folder.join(name), bytes)?;
    }
    Ok(())
}

fn read(folder: &Path) -> io::Result<Contents> {
    let mut contents = Contents::new();
    for entry in fs::read_dir(folder)? {
        let entry = entry?;
        let name = entry.file_name().to_string_lossy().into_owned();
        contents.insert(name, fs::read(entry.path())?);
    }
    Ok(contents)
}

/// Runs the program in the folder, which is made and, if nothing differs, removed. Says what differs.
pub fn compare(
    program: &Path,
    folder: &Path,
    files: &Files,
    old: bool,
    answer: &Answer,
) -> io::Result<Option<String>> {
    let given = before(files, old);
    write(folder, &given)?;
    let run = Command::new(program)
        .current_dir(folder)
        .stdin(Stdio::null())
        .output()?;
    if run.status.code().is_none() {
        return Ok(Some(format!(
            "the program ended by a signal ({})",
            run.status
        )));
    }
    let expected = line(answer);
    if run.stdout != expected.as_bytes() {
        let printed = String::from_utf8_lossy(&run.stdout);
        return Ok(Some(format!("printed {printed:?}, not {expected:?}")));
    }
    let expected = after(given, answer);
    let left = read(folder)?;
    for name in expected.keys().chain(left.keys()) {
        if expected.get(name) != left.get(name) {
            return Ok(Some(format!(
                "the file {name} is not as it should be afterwards"
            )));
        }
    }
    fs::remove_dir_all(folder)?;
    Ok(None)
}
