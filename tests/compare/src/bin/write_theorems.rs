//! Prints the small cases as theorems about the definitions of the calls, for `crates/cases/proofs/MadeCases.antt`.

use compare::case::{Answer, Case};
use compare::selection::by_number;
use honest_log::model::hex;
use std::collections::{BTreeMap, BTreeSet};
use std::env;

const HEAD: &str = r#"-- Small calls made by the tests' honest log and case generator, computed with the real SHA-256. This file is written by that
-- generator (tests/compare, `write_theorems`), and the tests compare it with what the generator writes.
use mathlib.Core.Path.{◌≡◌, refl}
use mathlib.Core.List.{[], ◌++◌}
use mathlib.Core.Option.{Option, none, some}
use Prim.Native.Nat.{ℕ}
use Rattle.lists.specs.Lists.{Bytes}
use Rattle.lines.specs.Number.{ascii}
use Rattle.rules.specs.StateText.{read_state}
use Rattle.rules.specs.Response.{search, monitor}
use Rattle.rules.specs.Refusals.{Inputs, Judgement, judge}
use Rattle.rules.specs.Calls.{number_of, text_of, value_of}
use Rattle.rules.proofs.Running.{x, opened}
use Rattle.rules.proofs.Cases.{asking}

-- the number, the text of the new state, the value
unfoldable pub answered : Judgement → ℕ × (Option Bytes × Option Bytes)
answered j = (number_of j, (text_of j, value_of j))

unfoldable pub answer : Bytes → Inputs → ℕ × (Option Bytes × Option Bytes)
answer text i = answered (judge (read_state text) i)
"#;

/// Written out longer than this, what stands in several theorems gets a name.
const LONG: usize = 30;

/// With the argument `all` every small case becomes a theorem, also those that are beyond what the checker computes.
fn main() {
    let cases = compare::small();
    let cases = match env::args().nth(1).as_deref() {
        Some("all") => cases,
        _ => chosen(cases),
    };
    let names = Names::of(&cases);
    print!("{HEAD}{}", names.definitions());
    for case in &cases {
        print!("{}", names.theorem(case));
    }
}

/// Of every number the first search and the first monitoring.
fn chosen(cases: Vec<Case>) -> Vec<Case> {
    by_number(cases).into_iter().flat_map(firsts).collect()
}

/// The first of each kind.
fn firsts(mut cases: Vec<Case>) -> Vec<Case> {
    let mut seen = BTreeSet::new();
    cases.retain(|case| seen.insert(case.inputs.kind.word()));
    cases
}

/// A byte string as it is written, and what it is.
struct Piece {
    kind: String,
    written: String,
}

impl Piece {
    fn bytes(kind: &str, bytes: &[u8]) -> Piece {
        Piece {
            kind: kind.to_string(),
            written: match bytes {
                [] => "[]".to_string(),
                bytes => format!("x \"{}\"", hex(bytes)),
            },
        }
    }

    /// A line as text where it can be written so, else in hex.
    fn line(line: &[u8]) -> Piece {
        let word = line.split(|byte| !byte.is_ascii_lowercase()).next();
        let word = String::from_utf8_lossy(word.unwrap_or(b""));
        Piece {
            kind: format!("{word}_line"),
            written: text(line).unwrap_or_else(|| format!("x \"{}\"", hex(line))),
        }
    }

    fn lines(text: &[u8]) -> Vec<Piece> {
        let lines = text.split_inclusive(|&byte| byte == b'\n');
        lines.map(Piece::line).collect()
    }
}

/// A line between quotes, if it has only letters, tabs and a newline.
fn text(line: &[u8]) -> Option<String> {
    let mut written = String::new();
    for &byte in line {
        match byte {
            b'\t' => written += "\\t",
            b'\n' => written += "\\n",
            b' '..=b'~' if byte != b'"' && byte != b'\\' => written.push(byte as char),
            _ => return None,
        }
    }
    Some(format!("ascii \"{written}\""))
}

/// The inputs of a case that a name may stand for, other than texts.
fn inputs(case: &Case) -> [Piece; 4] {
    [
        Piece::bytes("settings", &case.inputs.settings),
        Piece::bytes("identifier", &case.inputs.identifier),
        Piece::bytes("sheet", &case.inputs.sheet),
        Piece::bytes("signed", &case.inputs.signed),
    ]
}

/// The text of the state afterwards, where there is one.
fn new_state(case: &Case) -> &[u8] {
    match &case.answer {
        Some(Answer::Accepted(acceptance)) => &acceptance.state,
        _ => &[],
    }
}

/// Names for what stands in several theorems.
struct Names {
    by_written: BTreeMap<String, String>,
}

impl Names {
    fn of(cases: &[Case]) -> Names {
        let mut seen = BTreeSet::new();
        let mut counts: BTreeMap<String, usize> = BTreeMap::new();
        let mut by_written = BTreeMap::new();
        for Piece { kind, written } in cases.iter().flat_map(pieces) {
            let again = !seen.insert(written.clone());
            if again && written.len() > LONG && !by_written.contains_key(&written) {
                let count = counts.entry(kind.clone()).or_default();
                *count += 1;
                by_written.insert(written, format!("{kind}_{count}"));
            }
        }
        Names { by_written }
    }

    /// What the names stand for.
    fn definitions(&self) -> String {
        let mut definitions: Vec<String> = self
            .by_written
            .iter()
            .map(|(written, name)| format!("\nabbrev {name} : Bytes\n{name} = {written}\n"))
            .collect();
        definitions.sort();
        definitions.concat()
    }

    fn piece(&self, piece: &Piece) -> String {
        let name = self.by_written.get(&piece.written);
        name.unwrap_or(&piece.written).clone()
    }

    /// A piece as an argument.
    fn argument(&self, piece: &Piece) -> String {
        match self.piece(piece) {
            written if written.contains(' ') => format!("({written})"),
            name => name,
        }
    }

    fn text(&self, text: &[u8]) -> String {
        let pieces: Vec<String> = Piece::lines(text)
            .iter()
            .map(|line| self.piece(line))
            .collect();
        match &pieces[..] {
            [] => "[]".to_string(),
            pieces => format!("({})", pieces.join(" ++ ")),
        }
    }

    fn theorem(&self, case: &Case) -> String {
        let [settings, identifier, sheet, signed] = inputs(case).map(|piece| self.argument(&piece));
        let answer = case
            .answer
            .as_ref()
            .expect("a small case's answer is known");
        let name = name(case);
        format!(
            "\n-- {}\npub {name} : answer {}\n    (asking {} {}\n    {settings} {identifier} {} {sheet} {signed} {})\n    ≡ {}\nunfolding opened answered answer\n{name} = refl\n",
            case.name,
            self.text(&case.inputs.state),
            case.inputs.kind.word(),
            self.text(&case.inputs.response),
            case.inputs.clock,
            case.room,
            self.expected(answer),
        )
    }

    fn expected(&self, answer: &Answer) -> String {
        match answer {
            Answer::Refused(number) => format!("({number}, (none, none))"),
            Answer::Accepted(acceptance) => {
                let value = match &acceptance.value {
                    Some(value) => format!("some {}", self.argument(&Piece::bytes("value", value))),
                    None => "none".to_string(),
                };
                format!("(0, (some {}, {value}))", self.text(&acceptance.state))
            }
        }
    }
}

/// All that is written of a case, in the order of its theorem.
fn pieces(case: &Case) -> Vec<Piece> {
    let mut pieces = Piece::lines(&case.inputs.state);
    pieces.extend(Piece::lines(&case.inputs.response));
    pieces.extend(inputs(case));
    pieces.extend(Piece::lines(new_state(case)));
    pieces
}

/// A name of letters, digits and underscores.
fn name(case: &Case) -> String {
    let words = case.name.split(|c: char| !c.is_ascii_alphanumeric());
    let words: Vec<String> = words
        .filter(|word| !word.is_empty())
        .map(str::to_lowercase)
        .collect();
    words.join("_")
}
