//! Number 15: a signed text that is not the tree head's (paper 01, Sixteen numbers).

use super::Damage;
use crate::base::Base;
use honest_log::model::Exchange;

pub fn damages(base: &Base) -> Vec<Damage> {
    let mut list = bytes(base);
    list.extend(lengths());
    list.extend(contents(base));
    list
}

fn bytes(base: &Base) -> Vec<Damage> {
    let length = base.exchange.signed_text().len();
    (0..length)
        .map(|at| {
            Damage::on_inputs(15, format!("signed text off in byte {at}"), move |inputs| {
                inputs.signed[at] ^= 1 << (at % 8);
            })
        })
        .collect()
}

fn lengths() -> Vec<Damage> {
    let on = |name: &str, change: fn(&mut Vec<u8>)| {
        Damage::on_inputs(15, name, move |inputs| change(&mut inputs.signed))
    };
    vec![
        on("empty signed text", Vec::clear),
        on("signed text with a zero byte more", |signed| signed.push(0)),
        on("signed text with a zero byte before it", |signed| {
            signed.insert(0, 0)
        }),
        on("signed text with a byte fewer at the end", |signed| {
            signed.pop();
        }),
        on("signed text with a byte fewer at the front", |signed| {
            signed.remove(0);
        }),
        on("signed text twice", |signed| signed.extend(signed.clone())),
        on("signed text without settings", |signed| {
            signed.drain(..signed.len() - 40);
        }),
        on("signed text of the settings alone", |signed| {
            signed.truncate(signed.len() - 40)
        }),
        on("signed text without root", |signed| {
            signed.truncate(signed.len() - 32)
        }),
        on("signed text with a length before the root", |signed| {
            signed.insert(signed.len() - 32, 32);
        }),
    ]
}

/// Well-formed tree heads of something else.
fn contents(base: &Base) -> Vec<Damage> {
    let of = |name: &str, change: fn(&mut Exchange)| {
        let mut other = base.exchange.clone();
        change(&mut other);
        let signed = other.signed_text();
        Damage::on_inputs(15, format!("signed text of {name}"), move |inputs| {
            inputs.signed = signed.clone()
        })
    };
    vec![
        of("one entry more", |exchange| exchange.response.size += 1),
        of("one entry fewer", |exchange| exchange.response.size -= 1),
        of("size 0", |exchange| exchange.response.size = 0),
        of("another root", |exchange| exchange.root = [0x5e; 32]),
        of("no root", |exchange| exchange.root = [0; 32]),
        of("another bound", |exchange| exchange.settings.max_ahead ^= 1),
        of("another suite", |exchange| exchange.settings.suite = 2),
        of("another mode", |exchange| exchange.settings.mode = 3),
        of("a longer key", |exchange| {
            exchange.settings.signature_key.push(1)
        }),
        of("a lifetime", |exchange| {
            exchange.settings.maximum_lifetime = Some(77)
        }),
    ]
}
