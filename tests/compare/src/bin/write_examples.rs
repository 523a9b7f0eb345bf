//! Writes the example folders and paper 01's worked examples, under the places they have in the repository:
//! `write_examples DIRECTORY`. Each has the program's six files, the line it prints in `line` and, where it accepts, what it
//! writes. `examples/README.md` explains them.

use compare::case::{Answer, Inputs};
use compare::{examples, program};
use honest_log::model::{Digest, Exchange, Settings, State};
use honest_log::{Addition, Contents, Log, Question, VrfRule};
use second::sha256::sha256;
use std::env;
use std::fs;
use std::io;
use std::path::Path;

const TURBINE: &[u8] = b"turbine-7";
const NEIGHBOUR: &[u8] = b"turbine-8";

/// Midnight of 16 November 2026 in milliseconds; the log adds an entry every hour.
const MIDNIGHT: u64 = 1_794_787_200_000;
const HOUR: u64 = 3_600_000;

fn main() -> io::Result<()> {
    let directory = env::args().nth(1).expect("usage: write_examples DIRECTORY");
    let directory = Path::new(&directory);
    for (name, case) in examples::worked() {
        let answer = case.answer.expect("an example's answer is known");
        let folder = directory.join("tests/worked").join(name);
        write_folder(&folder, &case.inputs, &answer)?;
    }

    let directory = &directory.join("examples");
    let log = log(b"turbine-7: third image key");
    let first = question(0x10, &State::new(TURBINE), 6);
    let search = log.search(&first).expect("the label has versions").exchange;
    write(directory, "search", &search, 0)?;

    let later = question(0x20, &search.new_state, 8);
    let monitoring = log.monitor(&later).expect("the log has entries").exchange;
    write(directory, "monitoring", &monitoring, 0)?;

    // The neighbour's answer comes to this turbine's request.
    let neighbours = question(0x30, &State::new(NEIGHBOUR), 6);
    let mut foreign = log
        .search(&neighbours)
        .expect("the label has versions")
        .exchange;
    foreign.identifier = first.identifier.clone();
    foreign.state = first.state.clone();
    write(directory, "foreign-identifier", &foreign, 6)?;

    // A log that is the same but for the third key, from the beginning.
    let forged = self::log(b"turbine-7: a thief's image key");
    let again = question(0x40, &search.new_state, 7);
    let forgery = forged
        .search(&again)
        .expect("the label has versions")
        .exchange;
    write(directory, "forged-history", &forgery, 14)
}

/// Eight entries; `third` is the value of version 2 of the turbine.
fn log(third: &[u8]) -> Log {
    let turbine = outputs(TURBINE, [0x00, 0x40, 0x80, 0xc0]);
    let neighbour = outputs(NEIGHBOUR, [0x20, 0x60, 0xa0, 0xe0]);
    let hashed = VrfRule::Hashed { seed: 0 };
    let versions = [0, 1, 2, 3];
    let vrf = VrfRule::table(TURBINE, &versions, &turbine, hashed);
    let mut log = Log::new(VrfRule::table(NEIGHBOUR, &versions, &neighbour, vrf));
    let mut add = |hour: u64, additions: &[(&[u8], u32, &[u8])]| {
        let additions: Vec<Addition> = additions.iter().map(addition).collect();
        log.append(MIDNIGHT + hour * HOUR, &additions);
    };
    add(
        0,
        &[
            (TURBINE, 0, b"turbine-7: first image key"),
            (NEIGHBOUR, 0, b"turbine-8: first image key"),
        ],
    );
    add(1, &[(NEIGHBOUR, 1, b"turbine-8: second image key")]);
    add(2, &[(TURBINE, 1, b"turbine-7: second image key")]);
    add(3, &[(NEIGHBOUR, 2, b"turbine-8: third image key")]);
    add(4, &[]);
    add(5, &[(TURBINE, 2, third)]);
    add(6, &[]);
    add(7, &[(NEIGHBOUR, 3, b"turbine-8: fourth image key")]);
    log
}

/// Made-up VRF outputs of versions 0 to 3, whose first bytes are chosen so that the prefix tree is easy to draw.
fn outputs(label: &[u8], first_bytes: [u8; 4]) -> [Digest; 4] {
    let mut outputs = [0u8, 1, 2, 3].map(|version| sha256(&[label, &[version]].concat()));
    for (output, first) in outputs.iter_mut().zip(first_bytes) {
        output[0] = first;
    }
    outputs
}

/// A version whose opening is sixteen times the same byte.
fn addition(&(label, version, value): &(&[u8], u32, &[u8])) -> Addition {
    Addition {
        label: label.to_vec(),
        version,
        contents: Contents {
            value: value.to_vec(),
            opening: [0xa0 + version as u8; 16],
        },
    }
}

/// A question half a minute after the last of so many entries; its identifier counts up from a first byte.
fn question(first: u8, state: &State, size: u64) -> Question {
    Question {
        identifier: (first..first + 16).collect(),
        clock: MIDNIGHT + (size - 1) * HOUR + 30_000,
        settings: Settings {
            suite: 1,
            mode: 1,
            signature_key: b"the log's signature key".to_vec(),
            vrf_key: b"the log's VRF key".to_vec(),
            max_ahead: 10_000,
            max_behind: 2 * HOUR,
            monitoring_window: 24 * HOUR,
            maximum_lifetime: None,
        },
        state: state.clone(),
        size,
    }
}

/// Writes an example that is answered with a number, 0 being acceptance.
fn write(directory: &Path, name: &str, exchange: &Exchange, number: u8) -> io::Result<()> {
    let answer = Answer::of(number, exchange);
    write_folder(&directory.join(name), &Inputs::of(exchange), &answer)
}

fn write_folder(folder: &Path, inputs: &Inputs, answer: &Answer) -> io::Result<()> {
    fs::create_dir_all(folder)?;
    let put = |name: &str, bytes: &[u8]| fs::write(folder.join(name), bytes);
    put("request", &inputs.request())?;
    put("response", &inputs.response)?;
    put("settings", &inputs.settings)?;
    put("state", &inputs.state)?;
    put("sheet", &inputs.sheet)?;
    put("signed", &inputs.signed)?;
    put("line", program::line(answer).as_bytes())?;
    if let Answer::Accepted(acceptance) = answer {
        put("state.new", &acceptance.state)?;
        if let Some(value) = &acceptance.value {
            put("value", value)?;
        }
    }
    Ok(())
}
