//! Responses of a length that must be refused, and late where that can be.

use crate::answers::{long_lookups, long_monitoring, most_versions, short, short_monitoring};
use crate::inputs::Inputs;
use crate::Random;
use honest_log::model::{hex, Entry, Exchange, Lookup, LookupResult, Response, Step};

/// All of them, of at most so many bytes each.
pub fn inputs(length: usize, random: &mut Random) -> Vec<Inputs> {
    let honest = short();
    let line = |name, start: &str, byte: u8| {
        let mut response = start.as_bytes().to_vec();
        response.resize(length, byte);
        Inputs::with(name, 5, &honest, response)
    };
    let start = format!("kt\tsearch\t{}\t", hex(&honest.identifier));
    let mut list = vec![Inputs::with(
        "random bytes",
        5,
        &honest,
        random.bytes(length),
    )];
    for long in [long_lookups(length), long_monitoring(length)] {
        list.push(broken_end(&long));
        list.push(wrong_lookup(long));
    }
    list.extend(many_lines(length, &honest));
    list.extend(many_lines(length, &short_monitoring()));
    list.push(line("a line of digits", &format!("{start}-\nhead\t"), b'7'));
    list.push(line("a line of hex", &start, b'a'));
    list
}

/// More versions asked for than there can be outputs.
pub fn versions() -> Inputs {
    Inputs::of("more versions than outputs", 10, &most_versions())
}

/// A long answer that is right but for its last line.
fn broken_end(long: &Exchange) -> Inputs {
    let mut inputs = Inputs::of("last line broken", 5, long);
    let last = inputs.response.len() - 2;
    inputs.response[last] = b'x';
    inputs
}

/// A long answer that is right but for the last sibling of its last lookup.
fn wrong_lookup(mut exchange: Exchange) -> Inputs {
    let entry = exchange.response.entries.last_mut().expect("one is shown");
    let lookup = entry.lookups.last_mut().expect("each has lookups");
    let sibling = lookup.siblings.last_mut().expect("there are siblings");
    sibling[31] ^= 1;
    Inputs::of("last lookup wrong", 12, &exchange)
}

/// Short answers with one line over and over: steps, entries, lookups, nodes.
fn many_lines(length: usize, short: &Exchange) -> Vec<Inputs> {
    let add_step = |response: &mut Response, count: usize| {
        let step = Step {
            version: 0,
            commitment: None,
        };
        response.steps.extend(vec![step; count]);
    };
    let add_entry = |response: &mut Response, count: usize| {
        let entry = Entry {
            position: 7,
            time: 0,
            prefix_root: [0; 32],
            lookups: vec![lookup()],
        };
        response.entries.extend(vec![entry; count]);
    };
    let add_lookup = |response: &mut Response, count: usize| {
        let entry = response.entries.last_mut().expect("some are shown");
        entry.lookups.extend(vec![lookup(); count]);
    };
    let add_node = |response: &mut Response, count: usize| {
        response.nodes.extend(vec![[0; 32]; count]);
    };
    vec![
        repeated("many steps", length, short, add_step),
        repeated("many entries", length, short, add_entry),
        repeated("many lookups", length, short, add_lookup),
        repeated("many nodes", length, short, add_node),
    ]
}

/// The shortest lookup.
fn lookup() -> Lookup {
    Lookup {
        version: 0,
        result: LookupResult::EmptyPlace,
        siblings: Vec::new(),
    }
}

/// A short answer to which so much is added that it just stays below a length.
fn repeated(
    name: &str,
    length: usize,
    short: &Exchange,
    add: impl Fn(&mut Response, usize),
) -> Inputs {
    let mut exchange = short.clone();
    let before = exchange.response.text().len();
    let mut one = exchange.response.clone();
    add(&mut one, 1);
    let each = one.text().len() - before;
    add(&mut exchange.response, (length - before) / each);
    Inputs::of(name, 9, &exchange)
}
