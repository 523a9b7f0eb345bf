//! Number 6: another kind, identifier or label than the one asked for (paper 01, Sixteen numbers).

use super::{Damage, Damages};
use crate::base::Base;
use crate::limits;
use honest_log::model::{Exchange, Kind, Target};

pub fn damages(base: &Base) -> Vec<Damage> {
    let mut list = identifiers();
    list.extend(labels(base));
    list.extend(kinds(base));
    list
}

/// Each bit of the identifier, in the question and in the answer.
fn identifiers() -> Vec<Damage> {
    let mut list = Vec::new();
    for bit in 0..8 * limits::IDENTIFIER {
        list.on_inputs(
            6,
            format!("asked identifier off by bit {bit}"),
            move |inputs| {
                inputs.identifier[bit / 8] ^= 0x80 >> (bit % 8);
            },
        );
    }
    for byte in 0..limits::IDENTIFIER {
        list.on_exchange(
            6,
            format!("answered identifier off in byte {byte}"),
            move |exchange| {
                exchange.response.identifier[byte] ^= 0xff;
            },
        );
    }
    list.on_exchange(6, "answered identifier reversed", |exchange| {
        exchange.response.identifier.reverse();
    });
    list.on_exchange(6, "answered identifier all zero", |exchange| {
        exchange.response.identifier.fill(0);
    });
    list
}

/// A label that was there, as another one.
fn on_label(name: &str, change: fn(&mut Vec<u8>)) -> [Damage; 2] {
    let in_response = move |exchange: &mut Exchange| change(&mut exchange.response.label);
    let in_state = move |exchange: &mut Exchange| change(&mut exchange.state.label);
    [
        Damage::on_exchange(6, format!("{name} in the response"), in_response),
        Damage::on_exchange(6, format!("{name} in the state"), in_state),
    ]
}

fn labels(base: &Base) -> Vec<Damage> {
    let length = base.label().len();
    let mut list = Vec::new();
    if length < limits::LABEL {
        list.extend(on_label("label with a zero byte behind it", |label| {
            label.push(0)
        }));
        list.extend(on_label("label with a byte before it", |label| {
            label.insert(0, b'a')
        }));
        list.extend(on_label("label of 255 bytes", |label| {
            label.resize(limits::LABEL, b'a')
        }));
    }
    if length > 0 {
        list.extend(on_label("empty label", Vec::clear));
        list.extend(on_label("label with a byte fewer", |label| {
            label.pop();
        }));
        list.extend(on_label("label off in its first bit", |label| {
            label[0] ^= 0x80
        }));
        list.extend(on_label("label off in its last bit", |label| {
            let last = label.len() - 1;
            label[last] ^= 1;
        }));
        list.extend(on_label("label in other case", |label| {
            label.iter_mut().for_each(|byte| *byte ^= 0x20);
        }));
    }
    list
}

/// The other kind is asked for, or well answered.
fn kinds(base: &Base) -> Vec<Damage> {
    let asked = |kind: Kind| move |exchange: &mut Exchange| exchange.kind = kind;
    match base.exchange.kind {
        Kind::Search => vec![
            Damage::on_exchange(6, "monitoring asked, search answered", asked(Kind::Monitor)),
            Damage::on_exchange(6, "search asked, monitoring answered", |exchange| {
                exchange.response.kind = Kind::Monitor;
                exchange.response.target = None;
            }),
        ],
        Kind::Monitor => vec![
            Damage::on_exchange(6, "search asked, monitoring answered", asked(Kind::Search)),
            Damage::on_exchange(6, "monitoring asked, search answered", |exchange| {
                exchange.response.kind = Kind::Search;
                exchange.response.target = Some(Target {
                    version: 0,
                    opening: vec![0; limits::OPENING],
                    value: Vec::new(),
                });
            }),
        ],
    }
}
