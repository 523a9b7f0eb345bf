//! The second program with a fault, chosen by its name in the environment variable FAULT: the comparison must find it.
//! Without an argument it runs as the program does; `wrong list` prints the names.

use compare::case::{Answer, Files};
use compare::program;
use std::env;
use std::fs;

const FAULTS: [&str; 9] = [
    "another number",
    "no newline",
    "two lines",
    "state cut",
    "value on refusal",
    "value left on monitoring",
    "file left over",
    "state replaced",
    "nothing written",
];

fn main() {
    if env::args().nth(1).as_deref() == Some("list") {
        for fault in FAULTS {
            println!("{fault}");
        }
        return;
    }
    let fault = env::var("FAULT").unwrap_or_default();
    let file = |name| fs::read(name).ok();
    let answer = program::plain(&Files {
        request: file("request"),
        response: file("response"),
        settings: file("settings"),
        state: file("state"),
        sheet: file("sheet"),
        signed: file("signed"),
    });
    leave(&answer, &fault);
    print!("{}", printed(&answer, &fault));
}

/// The files, with the fault.
fn leave(answer: &Answer, fault: &str) {
    let put = |name: &str, bytes: &[u8]| fs::write(name, bytes).expect("a file can be written");
    match answer {
        Answer::Refused(_) if fault == "value on refusal" => put("value", b""),
        Answer::Refused(_) => {}
        Answer::Accepted(_) if fault == "nothing written" => {}
        Answer::Accepted(acceptance) => {
            let cut = usize::from(fault == "state cut");
            put(
                "state.new",
                &acceptance.state[..acceptance.state.len() - cut],
            );
            match &acceptance.value {
                Some(value) => put("value", value),
                None if fault == "value left on monitoring" => put("value", b""),
                None => {}
            }
            if fault == "state replaced" {
                put("state", &acceptance.state);
            }
            if fault == "file left over" {
                put("state.new.part", &acceptance.state);
            }
        }
    }
}

/// The line, with the fault.
fn printed(answer: &Answer, fault: &str) -> String {
    let line = program::line(answer);
    match (fault, answer) {
        ("another number", Answer::Refused(16)) => program::line(&Answer::Refused(15)),
        ("no newline", _) => line.trim_end().to_string(),
        ("two lines", Answer::Accepted(_)) => line.repeat(2),
        _ => line,
    }
}
