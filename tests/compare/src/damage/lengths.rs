//! Number 1: inputs over their lengths, and an identifier of another length (paper 01, What a call
//! is given).

use super::{Damage, Damages};
use crate::base::Base;
use crate::limits;
use honest_log::model::Digest;

pub fn damages(base: &Base) -> Vec<Damage> {
    let mut list = identifiers();
    list.extend(settings());
    list.extend(sheets(base));
    list.extend(texts());
    list
}

fn identifiers() -> Vec<Damage> {
    (0..=40)
        .filter(|length| *length != limits::IDENTIFIER)
        .map(|length| {
            Damage::on_inputs(1, format!("identifier of {length} bytes"), move |inputs| {
                inputs.identifier.resize(length, 0)
            })
        })
        .collect()
}

/// The settings' bytes apart from the keys, where no lifetime is given.
const WITHOUT_KEYS: usize = 2 + 1 + 2 + 2 + 3 * 8 + 1;

fn settings() -> Vec<Damage> {
    let keys = limits::SETTINGS - WITHOUT_KEYS;
    let with_keys = |number, name: &str, signature: usize, vrf: usize| {
        Damage::on_exchange(number, name, move |exchange| {
            exchange.settings.maximum_lifetime = None;
            exchange.settings.signature_key = vec![7; signature];
            exchange.settings.vrf_key = vec![8; vrf];
        })
    };
    vec![
        with_keys(
            0,
            "settings of 2,048 bytes by the signature key",
            keys - 33,
            33,
        ),
        with_keys(0, "settings of 2,048 bytes by the VRF key", 0, keys),
        with_keys(
            1,
            "settings of 2,049 bytes by the signature key",
            keys - 32,
            33,
        ),
        with_keys(1, "settings of 2,049 bytes by the VRF key", 0, keys + 1),
        with_keys(1, "settings with a key of 65,535 bytes", 65_535, 0),
        Damage::on_inputs(1, "settings with spare bytes up to 2,049", |inputs| {
            inputs.settings.resize(limits::SETTINGS + 1, 0)
        }),
        Damage::on_inputs(2, "settings with spare bytes up to 2,048", |inputs| {
            inputs.settings.resize(limits::SETTINGS, 0)
        }),
        Damage::on_inputs(1, "signed text of 2,089 bytes", |inputs| {
            inputs.signed.resize(limits::SIGNED + 1, 0)
        }),
        Damage::on_inputs(15, "signed text of 2,088 bytes", |inputs| {
            inputs.signed.resize(limits::SIGNED, 0)
        }),
    ]
}

/// A sheet of so many records: those it has and unused versions between and after them.
fn filled(sheet: &[(u32, Digest)], records: usize) -> Vec<(u32, Digest)> {
    let mut filled = sheet.to_vec();
    let mut version = 0;
    while filled.len() < records {
        if sheet.iter().all(|(used, _)| *used != version) {
            filled.push((version, [version as u8; limits::DIGEST]));
        }
        version += 1;
    }
    filled.sort();
    filled
}

fn sheets(base: &Base) -> Vec<Damage> {
    let full = limits::SHEET / limits::RECORD;
    let records = base.exchange.sheet.len();
    let mut list = vec![
        Damage::on_exchange(0, "sheet of 36,864 bytes", move |exchange| {
            exchange.sheet = filled(&exchange.sheet, full)
        }),
        Damage::on_exchange(1, "sheet of 36,900 bytes", move |exchange| {
            exchange.sheet = filled(&exchange.sheet, full + 1)
        }),
        Damage::on_inputs(1, "sheet of 36,865 bytes", |inputs| {
            inputs.sheet.resize(limits::SHEET + 1, 0)
        }),
        Damage::on_inputs(4, "sheet of 36,863 bytes", |inputs| {
            inputs.sheet.resize(limits::SHEET - 1, 0)
        }),
    ];
    if records < full {
        list.on_exchange(
            0,
            "sheet with a version that is not asked",
            move |exchange| exchange.sheet = filled(&exchange.sheet, records + 1),
        );
    }
    list
}

/// A number, what it is about, the length, and what fills the text up to it.
type Filled = (u8, &'static str, usize, &'static [u8]);

const STATES: [Filled; 5] = [
    (
        1,
        "state text of 8,193 bytes by pairs",
        limits::STATE + 1,
        b"pair\t0\t0\n",
    ),
    (
        3,
        "state text of 8,192 bytes by pairs",
        limits::STATE,
        b"pair\t0\t0\n",
    ),
    (
        1,
        "state text of 8,193 bytes by empty lines",
        limits::STATE + 1,
        b"\n",
    ),
    (
        3,
        "state text of 8,192 bytes by empty lines",
        limits::STATE,
        b"\n",
    ),
    (1, "state text of 16,384 bytes", 2 * limits::STATE, b"\0"),
];

const RESPONSES: [Filled; 3] = [
    (
        1,
        "response of 1,048,577 bytes by end lines",
        limits::RESPONSE + 1,
        b"end\n",
    ),
    (
        5,
        "response of 1,048,576 bytes by end lines",
        limits::RESPONSE,
        b"end\n",
    ),
    (
        1,
        "response of 1,048,577 bytes by zero bytes",
        limits::RESPONSE + 1,
        b"\0",
    ),
];

fn texts() -> Vec<Damage> {
    let mut list = Vec::new();
    for (number, name, length, filler) in STATES {
        list.on_inputs(number, name, move |inputs| {
            inputs.state = padded(&inputs.state, filler, length);
        });
    }
    for (number, name, length, filler) in RESPONSES {
        list.on_inputs(number, name, move |inputs| {
            inputs.response = padded(&inputs.response, filler, length);
        });
    }
    list
}

/// The bytes with a filler repeated behind them up to a length.
fn padded(bytes: &[u8], filler: &[u8], length: usize) -> Vec<u8> {
    bytes
        .iter()
        .chain(filler.iter().cycle())
        .take(length)
        .copied()
        .collect()
}
