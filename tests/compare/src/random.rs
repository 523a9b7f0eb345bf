//! Random changes of any input, with an answer that nobody knows beforehand: all checkers must
//! agree on it.

use crate::base::Base;
use crate::case::{Case, Inputs};
use crate::limits;
use crate::text::Lines;
use honest_log::model::Kind;
use honest_log::Random;

/// The base's call with one to three random changes.
pub fn changed(base: &Base, other: &Base, random: &mut Random) -> Case {
    let mut inputs = Inputs::of(&base.exchange);
    let mut room = limits::VALUE;
    let mut names = Vec::new();
    for _ in 0..random.between(1, 3) {
        names.push(change(&mut inputs, &mut room, other, random));
    }
    Case {
        name: format!("{}: {}", base.name, names.join("; ")),
        inputs,
        room,
        answer: None,
    }
}

/// One change of one input; half of them are in the response.
fn change(inputs: &mut Inputs, room: &mut usize, other: &Base, random: &mut Random) -> String {
    match random.below(16) {
        0..=4 => format!("response {}", bytes(&mut inputs.response, random)),
        5..=7 => format!("response {}", lines(&mut inputs.response, random)),
        8 => format!("settings {}", bytes(&mut inputs.settings, random)),
        9 => format!("state {}", bytes(&mut inputs.state, random)),
        10 => format!("state {}", lines(&mut inputs.state, random)),
        11 => format!("sheet {}", bytes(&mut inputs.sheet, random)),
        12 => format!("signed text {}", bytes(&mut inputs.signed, random)),
        13 => format!("identifier {}", bytes(&mut inputs.identifier, random)),
        14 => numbers(inputs, room, random),
        _ => exchanged(inputs, other, random),
    }
}

/// Bytes cut off, appended, flipped, set, put in or taken out.
fn bytes(input: &mut Vec<u8>, random: &mut Random) -> String {
    let at = random.below(input.len() as u64 + 1) as usize;
    let inside = at.min(input.len().saturating_sub(1));
    match random.below(7) {
        0 => {
            input.truncate(at);
            format!("cut to {at} bytes")
        }
        1 => {
            let length = random.between(1, 40) as usize;
            input.extend(random.bytes(length));
            format!("with {length} bytes more")
        }
        2 if !input.is_empty() => {
            input[inside] ^= 1 << random.below(8);
            format!("off by a bit in byte {inside}")
        }
        3 if !input.is_empty() => {
            input[inside] = *random.pick(b"\t\n\r-0123456789abcdefghknopstA\0");
            format!("with another byte at {inside}")
        }
        4 if !input.is_empty() => {
            input.remove(inside);
            format!("without byte {inside}")
        }
        5 if !input.is_empty() => {
            let end = (inside + random.between(1, 64) as usize).min(input.len());
            input.drain(inside..end);
            format!("without bytes {inside} to {end}")
        }
        _ => {
            input.insert(at, *random.pick(b"\t\n-019afe"));
            format!("with a byte more at {at}")
        }
    }
}

/// Lines swapped, doubled, taken out, or with another field.
fn lines(input: &mut Vec<u8>, random: &mut Random) -> String {
    let mut lines = Lines::read(input);
    if lines.0.is_empty() {
        return "as it was".to_string();
    }
    let count = lines.0.len() as u64;
    let at = random.below(count) as usize;
    let to = random.below(count) as usize;
    let name = match random.below(5) {
        0 => {
            lines.0.swap(at, to);
            format!("with lines {at} and {to} swapped")
        }
        1 => {
            lines.0.insert(to, lines.0[at].clone());
            format!("with line {at} again as line {to}")
        }
        2 => {
            lines.0.remove(at);
            format!("without line {at}")
        }
        3 => {
            let field = random.below(lines.0[at].len() as u64) as usize;
            let taken = random.pick(&lines.0[to]).clone();
            lines.0[at][field] = taken;
            format!("with a field of line {to} in line {at}")
        }
        _ => {
            let field = random.below(lines.0[at].len() as u64) as usize;
            lines.0[at][field] = other_field(&lines.0[at][field], random);
            format!("with another field {field} in line {at}")
        }
    };
    *input = lines.text();
    name
}

/// A field with another number, or other hex of any length.
fn other_field(field: &[u8], random: &mut Random) -> Vec<u8> {
    let number = String::from_utf8_lossy(field).parse::<u64>();
    match (number, random.below(4)) {
        (Ok(number), 0) => number.wrapping_add(1).to_string().into_bytes(),
        (Ok(number), 1) => number.wrapping_sub(1).to_string().into_bytes(),
        (Ok(_), _) => (random.next() >> random.below(64)).to_string().into_bytes(),
        (Err(_), 0) => b"-".to_vec(),
        (Err(_), 1) => field[..field.len() / 64 * 32].to_vec(),
        (Err(_), 2) => [field, field].concat(),
        (Err(_), _) => honest_log::model::hex(&random.digest()).into_bytes(),
    }
}

/// The inputs that are numbers.
fn numbers(inputs: &mut Inputs, room: &mut usize, random: &mut Random) -> String {
    match random.below(3) {
        0 => {
            inputs.kind = match inputs.kind {
                Kind::Search => Kind::Monitor,
                Kind::Monitor => Kind::Search,
            };
            "another kind".to_string()
        }
        1 => {
            inputs.clock = random.next() >> random.below(64);
            format!("clock {}", inputs.clock)
        }
        _ => {
            *room = random.below(40) as usize;
            format!("room {room}")
        }
    }
}

/// One input as it is in another call.
fn exchanged(inputs: &mut Inputs, other: &Base, random: &mut Random) -> String {
    let other = Inputs::of(&other.exchange);
    match random.below(5) {
        0 => inputs.response = other.response,
        1 => inputs.settings = other.settings,
        2 => inputs.state = other.state,
        3 => inputs.sheet = other.sheet,
        _ => inputs.signed = other.signed,
    }
    "one input of another call".to_string()
}
