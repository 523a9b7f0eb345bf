//! Number 5 in single fields: numbers, hex, lengths, words (paper 01, Response lines). Fields at
//! their limits keep the line rules, and a later number judges them.

use super::{Damage, Damages};
use crate::base::Base;
use crate::text::{edits, forms, Form, Lines};
use honest_log::model::Kind;

const WORDS: [&str; 10] = [
    "kt", "head", "target", "step", "entry", "in", "no", "nl", "node", "end",
];

pub fn damages(base: &Base) -> Vec<Damage> {
    let lines = Lines::read(&base.exchange.response.text());
    let mut list = Vec::new();
    for word in WORDS {
        let places = lines.of(word);
        for (which, at) in [("first", places.first()), ("last", places.last())] {
            if let Some(at) = at {
                list.extend(broken(which, word, *at));
            }
        }
    }
    list.extend(greatest_numbers(base, &lines));
    list.extend(longest_fields(base));
    list
}

fn on_field(
    number: u8,
    name: String,
    (at, field): (usize, usize),
    edit: impl Fn(&[u8]) -> Vec<u8> + 'static,
) -> Damage {
    Damage::on_inputs(number, name, move |inputs| {
        let mut lines = Lines::read(&inputs.response);
        lines.0[at][field] = edit(&lines.0[at][field]);
        inputs.response = lines.text();
    })
}

/// Every field of a line broken in every way, and the line with a field more or fewer.
fn broken(which: &str, word: &str, at: usize) -> Vec<Damage> {
    let mut list = Vec::new();
    let forms = forms(word.as_bytes());
    for (field, form) in forms.iter().enumerate() {
        for (how, edit) in edits(*form) {
            let name = format!("{which} {word} line, field {field} {how}");
            list.push(on_field(5, name, (at, field), edit));
        }
        let name = format!("{which} {word} line without field {field}");
        list.on_inputs(5, name, move |inputs| {
            let mut lines = Lines::read(&inputs.response);
            lines.0[at].remove(field);
            inputs.response = lines.text();
        });
    }
    for more in ["", "-", "0", "00"] {
        let name = format!("{which} {word} line with {more:?} as a field more");
        list.on_inputs(5, name, move |inputs| {
            let mut lines = Lines::read(&inputs.response);
            lines.0[at].push(more.as_bytes().to_vec());
            inputs.response = lines.text();
        });
    }
    list
}

/// The greatest number each field can be read with, and the number of the rule that then refuses
/// it.
fn greatest_numbers(base: &Base, lines: &Lines) -> Vec<Damage> {
    let mut list = Vec::new();
    let judged = [
        ("head", 1, 7),
        ("target", 1, 8),
        ("step", 1, 9),
        ("entry", 1, 9),
        ("in", 1, 9),
        ("no", 1, 9),
        ("nl", 1, 9),
    ];
    for (word, field, number) in judged {
        let Form::Number(limit) = forms(word.as_bytes())[field] else {
            continue;
        };
        if let Some(at) = lines.of(word).first() {
            let name = format!("{word} line's number as great as it can be read");
            list.push(on_field(number, name, (*at, field), move |_| {
                limit.to_string().into_bytes()
            }));
        }
    }
    let last = lines.of("entry").last().copied();
    let ahead = u128::from(base.exchange.clock) + u128::from(base.exchange.settings.max_ahead);
    if let (Some(at), true) = (last, ahead < u128::from(u64::MAX)) {
        list.push(on_field(
            11,
            "last entry's time 2^64 - 1".to_string(),
            (at, 2),
            |_| u64::MAX.to_string().into_bytes(),
        ));
    }
    list
}

/// Fields as long as they may be, in which only their contents are wrong.
fn longest_fields(base: &Base) -> Vec<Damage> {
    let mut list = vec![Damage::on_exchange(
        6,
        "label of 255 bytes in the response",
        |exchange| {
            exchange.response.label = vec![0x5a; crate::limits::LABEL];
        },
    )];
    if base.exchange.kind == Kind::Search {
        list.on_exchange(12, "value of 1,024 other bytes", |exchange| {
            if let Some(target) = &mut exchange.response.target {
                target.value = vec![0x5a; crate::limits::VALUE];
            }
        });
    }
    let looked_up = |index: &usize| !base.exchange.response.entries[*index].lookups.is_empty();
    if let Some(entry) = (0..base.exchange.response.entries.len()).find(looked_up) {
        list.on_exchange(12, "255 other siblings", move |exchange| {
            let lookup = &mut exchange.response.entries[entry].lookups[0];
            lookup.siblings = vec![[0x5a; crate::limits::DIGEST]; crate::limits::SIBLINGS];
        });
    }
    list
}
