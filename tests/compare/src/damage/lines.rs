//! Number 5 in whole lines: which may stand, in what order, and how the text ends (paper 01,
//! Response lines).

use super::{Damage, Damages};
use crate::base::Base;
use crate::text::{line, Lines};
use honest_log::model::Kind;

pub fn damages(base: &Base) -> Vec<Damage> {
    let lines = Lines::read(&base.exchange.response.text());
    let mut list = ends();
    list.extend(strangers(&lines));
    list.extend(once_only(&lines));
    list.extend(orders(&lines));
    list.extend(kinds(base));
    list
}

fn on_lines(name: impl Into<String>, change: impl Fn(&mut Lines) + 'static) -> Damage {
    Damage::on_inputs(5, name, move |inputs| {
        let mut lines = Lines::read(&inputs.response);
        change(&mut lines);
        inputs.response = lines.text();
    })
}

/// What a text becomes, by name.
type OnText = (&'static str, fn(&str) -> String);

/// What stands at the beginning, at the end, and between fields and lines.
const ENDS: [OnText; 20] = [
    ("empty response", |_| String::new()),
    ("response of one 0x0A", |_| "\n".to_string()),
    ("response of its end line alone", |_| "end\n".to_string()),
    ("response without its last 0x0A", |text| {
        text.trim_end().to_string()
    }),
    ("response with 0x0A behind the end", |text| {
        format!("{text}\n")
    }),
    ("response with 0x00 behind the end", |text| {
        format!("{text}\0")
    }),
    ("response with a space behind the end", |text| {
        format!("{text} ")
    }),
    ("response with a tab behind the end", |text| {
        format!("{text}\t")
    }),
    ("response with a letter behind the end", |text| {
        format!("{text}e")
    }),
    ("response with a second end line", |text| {
        format!("{text}end\n")
    }),
    ("response with itself behind it", |text| {
        format!("{text}{text}")
    }),
    ("response with 0x0D before each 0x0A", |text| {
        text.replace('\n', "\r\n")
    }),
    ("response with 0x0D for each 0x0A", |text| {
        text.replace('\n', "\r")
    }),
    ("response with 0x0D before the last 0x0A", |text| {
        format!("{}\r\n", text.trim_end())
    }),
    ("response with spaces for tabs", |text| {
        text.replace('\t', " ")
    }),
    ("response with two tabs for one", |text| {
        text.replace('\t', "\t\t")
    }),
    ("response with a tab at the end of each line", |text| {
        text.replace('\n', "\t\n")
    }),
    ("response with empty lines between its lines", |text| {
        text.replace('\n', "\n\n")
    }),
    ("response in upper case", |text| text.to_uppercase()),
    ("response with a mark of byte order", |text| {
        format!("\u{feff}{text}")
    }),
];

fn ends() -> Vec<Damage> {
    let mut list = Vec::new();
    for (name, change) in ENDS {
        list.on_inputs(5, name, move |inputs| {
            inputs.response = change(&String::from_utf8_lossy(&inputs.response)).into_bytes();
        });
    }
    list
}

/// Lines that no response has, at every place.
fn strangers(lines: &Lines) -> Vec<Damage> {
    let mut list = Vec::new();
    for at in 0..=lines.0.len() {
        for other in ["", "\t", "#", "size\t0\t0\t-", "elem\t00", "-"] {
            list.push(on_lines(
                format!("response with {other:?} as line {at}"),
                move |lines| {
                    lines.0.insert(at, line(other));
                },
            ));
        }
    }
    list
}

/// The lines that stand exactly once: none of them, or two.
fn once_only(lines: &Lines) -> Vec<Damage> {
    let mut list = Vec::new();
    for word in ["kt", "head", "target", "end"] {
        for at in lines.of(word) {
            list.push(on_lines(
                format!("response without its {word} line"),
                move |lines| {
                    lines.0.remove(at);
                },
            ));
            list.push(on_lines(
                format!("response with its {word} line twice"),
                move |lines| {
                    lines.0.insert(at, lines.0[at].clone());
                },
            ));
            list.push(on_lines(
                format!("response with its {word} line again before the end"),
                move |lines| {
                    lines.0.insert(lines.0.len() - 1, lines.0[at].clone());
                },
            ));
        }
    }
    list
}

/// Which line of a word is taken.
#[derive(Clone, Copy)]
enum Which {
    First,
    Last,
}

/// A line taken out and put before or behind another one.
const MOVES: [(Which, &str, &str, Which, &str); 22] = [
    (Which::First, "head", "before", Which::First, "kt"),
    (Which::First, "target", "before", Which::First, "head"),
    (Which::First, "target", "before", Which::First, "kt"),
    (Which::First, "target", "behind", Which::First, "step"),
    (Which::First, "target", "behind", Which::Last, "step"),
    (Which::First, "target", "behind", Which::First, "entry"),
    (Which::First, "step", "before", Which::First, "target"),
    (Which::First, "step", "before", Which::First, "head"),
    (Which::Last, "step", "behind", Which::First, "entry"),
    (Which::First, "step", "behind", Which::Last, "entry"),
    (Which::First, "step", "behind", Which::Last, "node"),
    (Which::First, "in", "before", Which::First, "entry"),
    (Which::First, "in", "behind", Which::First, "step"),
    (Which::Last, "in", "behind", Which::First, "node"),
    (Which::Last, "nl", "behind", Which::First, "node"),
    (Which::Last, "no", "behind", Which::First, "node"),
    (Which::First, "node", "before", Which::First, "entry"),
    (Which::First, "node", "before", Which::Last, "entry"),
    (Which::First, "node", "before", Which::First, "step"),
    (Which::First, "node", "behind", Which::First, "end"),
    (Which::First, "end", "before", Which::Last, "node"),
    (Which::First, "end", "before", Which::First, "entry"),
];

fn orders(lines: &Lines) -> Vec<Damage> {
    let place = |lines: &Lines, which: Which, word: &str| {
        let places = lines.of(word);
        match which {
            Which::First => places.first().copied(),
            Which::Last => places.last().copied(),
        }
    };
    let mut list = Vec::new();
    for (which, word, side, other, anchor) in MOVES {
        let (Some(from), Some(to)) = (place(lines, which, word), place(lines, other, anchor))
        else {
            continue;
        };
        let name = format!("line {from} ({word}) {side} line {to} ({anchor})");
        list.push(on_lines(name, move |lines| {
            let moved = lines.0.remove(from);
            let to = if from < to { to - 1 } else { to };
            lines
                .0
                .insert(if side == "before" { to } else { to + 1 }, moved);
        }));
    }
    let orphans = lines.of("entry").first().copied().filter(|entry| {
        let below = &lines.0[entry + 1][0];
        [&b"in"[..], b"no", b"nl"].contains(&&below[..])
    });
    if let Some(entry) = orphans {
        list.push(on_lines(
            "first entry line left out, its lookups kept",
            move |lines| {
                lines.0.remove(entry);
            },
        ));
    }
    list
}

/// The kind word and the target line belong together, and the edition word is fixed.
fn kinds(base: &Base) -> Vec<Damage> {
    let mut list = vec![match base.exchange.kind {
        Kind::Search => on_lines("search's answer that says monitor", |lines| {
            lines.0[0][1] = b"monitor".to_vec();
        }),
        Kind::Monitor => on_lines("monitoring's answer that says search", |lines| {
            lines.0[0][1] = b"search".to_vec();
        }),
    }];
    if base.exchange.kind == Kind::Monitor {
        list.push(on_lines(
            "monitoring's answer with a target line",
            |lines| {
                lines
                    .0
                    .insert(2, line("target\t0\t000102030405060708090a0b0c0d0e0f\t-"));
            },
        ));
    }
    for edition in ["kt2", "kt1", "KT", "kt ", "k", "ktt"] {
        list.push(on_lines(format!("edition {edition:?}"), move |lines| {
            lines.0[0][0] = edition.as_bytes().to_vec();
        }));
    }
    for kind in ["fixed", "Search", "Monitor", "searches", "update", "1"] {
        list.push(on_lines(format!("kind {kind:?}"), move |lines| {
            lines.0[0][1] = kind.as_bytes().to_vec();
        }));
    }
    list
}
