//! Number 3: state texts that break their form (paper 01, What a call is given).

use super::{Damage, Damages};
use crate::base::Base;
use crate::text::{edits, forms, line, Lines};
use honest_log::model::State;

pub fn damages(base: &Base) -> Vec<Damage> {
    let state = &base.exchange.state;
    let mut list = fields(state);
    list.extend(lines(state));
    list.extend(orders(state));
    list.extend(ends());
    list
}

/// A change of the state's text.
fn on_text(name: impl Into<String>, change: impl Fn(&mut Lines) + 'static) -> Damage {
    Damage::on_inputs(3, name, move |inputs| {
        let mut lines = Lines::read(&inputs.state);
        change(&mut lines);
        inputs.state = lines.text();
    })
}

/// Every field of the first line of each word, broken in every way.
fn fields(state: &State) -> Vec<Damage> {
    let lines = Lines::read(&state.text());
    let mut list = Vec::new();
    for word in ["size", "keep", "pair"] {
        let Some(at) = lines.of(word).first().copied() else {
            continue;
        };
        for (field, form) in forms(word.as_bytes()).into_iter().enumerate() {
            for (how, edit) in edits(form) {
                let name = format!("state's {word} field {field} {how}");
                list.push(on_text(name, move |lines| {
                    lines.0[at][field] = edit(&lines.0[at][field])
                }));
            }
        }
    }
    list
}

/// Lines with a field too few or too many, doubled, and lines that no state has.
fn lines(state: &State) -> Vec<Damage> {
    let count = Lines::read(&state.text()).0.len();
    let mut list = Vec::new();
    for at in 0..count {
        list.push(on_text(
            format!("state's line {at} with a field fewer"),
            move |lines| {
                lines.0[at].pop();
            },
        ));
        list.push(on_text(
            format!("state's line {at} with a field more"),
            move |lines| {
                lines.0[at].push(b"0".to_vec());
            },
        ));
        list.push(on_text(
            format!("state's line {at} doubled"),
            move |lines| {
                lines.0.insert(at, lines.0[at].clone());
            },
        ));
    }
    for at in 0..=count {
        for other in STRANGERS {
            list.push(on_text(
                format!("state with {other:?} as line {at}"),
                move |lines| {
                    lines.0.insert(at, line(other));
                },
            ));
        }
    }
    list
}

const STRANGERS: [&str; 7] = [
    "",
    "end",
    "size\t0\t0\t-",
    "head\t1",
    "node\t00",
    "Keep",
    "\t",
];

/// Lines in another order, or without the first.
fn orders(state: &State) -> Vec<Damage> {
    let mut list = vec![on_text("state without its size line", |lines| {
        lines.0.remove(0);
    })];
    if !state.values.is_empty() {
        list.push(on_text("state with its size line last", |lines| {
            lines.0.rotate_left(1)
        }));
    }
    if !state.values.is_empty() && !state.pairs.is_empty() {
        list.push(on_text(
            "state with a pair before the last value",
            |lines| {
                let pair = lines.of("pair")[0];
                lines.0.swap(pair - 1, pair);
            },
        ));
        list.push(on_text("state with a value after the pairs", |lines| {
            let value = lines.0.remove(1);
            lines.0.push(value);
        }));
    }
    list
}

/// What a text becomes, by name.
type OnText = (&'static str, fn(&str) -> String);

/// What stands at the very beginning or end of the text, and between its fields.
const ENDS: [OnText; 9] = [
    ("empty state text", |_| String::new()),
    ("state text of one 0x0A", |_| "\n".to_string()),
    ("state text without its last 0x0A", |text| {
        text.trim_end().to_string()
    }),
    ("state text with 0x0D before each 0x0A", |text| {
        text.replace('\n', "\r\n")
    }),
    ("state text with spaces for tabs", |text| {
        text.replace('\t', " ")
    }),
    ("state text with a zero byte behind it", |text| {
        format!("{text}\0")
    }),
    ("state text with a tab behind it", |text| {
        format!("{text}\t")
    }),
    ("state text with a mark of byte order", |text| {
        format!("\u{feff}{text}")
    }),
    ("state text behind an empty line", |text| {
        format!("\n{text}")
    }),
];

fn ends() -> Vec<Damage> {
    let mut list = Vec::new();
    for (name, change) in ENDS {
        list.on_inputs(3, name, move |inputs| {
            inputs.state = change(&String::from_utf8_lossy(&inputs.state)).into_bytes();
        });
    }
    list
}
