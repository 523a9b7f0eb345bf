//! Number 2: settings that do not read exactly, another suite, another mode (001 10.2, read as
//! paper 01 does: mode 1 has no leaf key).

use super::{Damage, Damages};
use crate::base::Base;
use crate::case::Inputs;

/// Size and root at the end of the signed text (001 10.2).
const TAIL: usize = 8 + 32;

/// Other settings' bytes, and the signed text that belongs to them.
fn replace(inputs: &mut Inputs, settings: Vec<u8>) {
    let tail = inputs
        .signed
        .split_off(inputs.signed.len().saturating_sub(TAIL));
    inputs.signed = [&settings[..], &tail].concat();
    inputs.settings = settings;
}

/// A change of the settings' bytes that the signed text follows.
fn on_bytes(name: impl Into<String>, change: impl Fn(&mut Vec<u8>) + 'static) -> Damage {
    Damage::on_inputs(2, name, move |inputs| {
        let mut settings = inputs.settings.clone();
        change(&mut settings);
        replace(inputs, settings);
    })
}

pub fn damages(base: &Base) -> Vec<Damage> {
    let mut list = suites_and_modes();
    list.extend(lengths(base));
    list.extend(lifetimes());
    list.extend(any_number());
    list.extend(keys());
    list.extend(leaf_keys());
    list.extend(whole_modes());
    list
}

fn suites_and_modes() -> Vec<Damage> {
    let mut list = Vec::new();
    for suite in [0, 2, 3, 0x0100, 0x0101, 0xf000, 0xffff] {
        list.on_exchange(2, format!("suite {suite}"), move |exchange| {
            exchange.settings.suite = suite
        });
    }
    for mode in [0, 2, 3, 4, 0x81, 255] {
        list.on_exchange(2, format!("mode {mode}"), move |exchange| {
            exchange.settings.mode = mode
        });
    }
    list
}

fn lengths(base: &Base) -> Vec<Damage> {
    let length = base.exchange.settings.bytes().len();
    let mut list: Vec<Damage> = (0..length)
        .map(|cut| {
            on_bytes(format!("settings cut to {cut} bytes"), move |bytes| {
                bytes.truncate(cut)
            })
        })
        .collect();
    for spare in [1, 7, 8, 9] {
        list.push(on_bytes(
            format!("settings with {spare} spare bytes"),
            move |bytes| bytes.extend(vec![0; spare]),
        ));
    }
    list.push(on_bytes("settings twice", |bytes| {
        bytes.extend(bytes.clone())
    }));
    list.push(on_bytes("settings without their first byte", |bytes| {
        bytes.remove(0);
    }));
    list.push(on_bytes("settings with a byte before them", |bytes| {
        bytes.insert(0, 0)
    }));
    list
}

/// The lifetime's presence byte and what follows it.
fn lifetimes() -> Vec<Damage> {
    let mut ends: Vec<(String, u8, usize)> = Vec::new();
    for presence in [2, 3, 0x80, 0xff] {
        ends.push((format!("lifetime marked {presence}"), presence, 8));
        ends.push((
            format!("lifetime marked {presence} and left out"),
            presence,
            0,
        ));
    }
    for following in [0, 1, 7, 9, 16] {
        ends.push((format!("lifetime of {following} bytes"), 1, following));
    }
    for following in [1, 8, 9] {
        ends.push((
            format!("no lifetime, but {following} bytes of it"),
            0,
            following,
        ));
    }
    let damage = |(name, presence, following): (String, u8, usize)| {
        on_bytes(name, move |bytes| {
            *bytes = without_lifetime(bytes);
            bytes.push(presence);
            bytes.extend(vec![0; following]);
        })
    };
    ends.into_iter().map(damage).collect()
}

/// Lifetimes and windows are read and signed, and any will do.
fn any_number() -> Vec<Damage> {
    let mut list = Vec::new();
    for (lifetime, window) in [
        (None, 0),
        (Some(0), 1),
        (Some(1), 0),
        (Some(u64::MAX), u64::MAX),
    ] {
        let name = format!("lifetime {lifetime:?} and window {window}");
        list.on_exchange(0, name, move |exchange| {
            exchange.settings.maximum_lifetime = lifetime;
            exchange.settings.monitoring_window = window;
        });
    }
    list.on_exchange(0, "empty keys", |exchange| {
        exchange.settings.signature_key.clear();
        exchange.settings.vrf_key.clear();
    });
    list
}

/// Up to, not with, the presence byte.
fn without_lifetime(settings: &[u8]) -> Vec<u8> {
    let numbers = vrf_key(settings).1;
    settings[..numbers + 3 * 8].to_vec()
}

/// Where a key's length stands in the settings, and the first byte after the key.
type Place = fn(&[u8]) -> (usize, usize);

fn signature_key(settings: &[u8]) -> (usize, usize) {
    (3, 5 + length_at(settings, 3))
}

fn vrf_key(settings: &[u8]) -> (usize, usize) {
    let at = signature_key(settings).1;
    (at, at + 2 + length_at(settings, at))
}

fn length_at(bytes: &[u8], at: usize) -> usize {
    usize::from(bytes[at]) * 256 + usize::from(bytes[at + 1])
}

/// A key's length that does not fit it.
fn keys() -> Vec<Damage> {
    let mut list = Vec::new();
    let places: [(&str, Place); 2] = [("signature", signature_key), ("VRF", vrf_key)];
    for (name, place) in places {
        list.push(on_bytes(
            format!("{name} key's length one more"),
            move |bytes| {
                let at = place(bytes).0;
                bytes[at + 1] = bytes[at + 1].wrapping_add(1);
            },
        ));
        list.push(on_bytes(
            format!("{name} key's length 65,535"),
            move |bytes| {
                let at = place(bytes).0;
                bytes[at..at + 2].fill(0xff);
            },
        ));
        list.push(on_bytes(
            format!("{name} key of a byte more"),
            move |bytes| {
                let end = place(bytes).1;
                bytes.insert(end, 0xff);
            },
        ));
    }
    list
}

/// The key that only another mode has.
fn leaf_keys() -> Vec<Damage> {
    let mut list = Vec::new();
    for length in [0u8, 1, 33] {
        list.push(on_bytes(
            format!("leaf key of {length} bytes in mode 1"),
            move |bytes| {
                let at = vrf_key(bytes).1;
                let key = [&[0, length][..], &vec![0; usize::from(length)]].concat();
                bytes.splice(at..at, key);
            },
        ));
    }
    list
}

/// Settings of the two other modes in their own full form.
fn whole_modes() -> Vec<Damage> {
    let in_mode = |name: &str, mode: u8, between: Vec<u8>| {
        on_bytes(name, move |bytes| {
            bytes[2] = mode;
            let at = vrf_key(bytes).1;
            bytes.splice(at..at, between.clone());
        })
    };
    vec![
        in_mode("settings of third-party management", 2, vec![0, 1, 5]),
        in_mode(
            "settings of third-party auditing",
            3,
            [&[0; 16][..], &[0, 1, 5]].concat(),
        ),
    ]
}
