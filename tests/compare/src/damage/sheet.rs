//! Numbers 4 and 10: a sheet that is not whole records, does not rise, or lacks a step's version
//! (paper 01, What a call is given).

use super::{Damage, Damages};
use crate::base::Base;
use crate::limits;
use honest_log::model::Digest;

pub fn damages(base: &Base) -> Vec<Damage> {
    let mut list = lengths();
    list.extend(orders(base));
    list.extend(endings());
    list.extend(missing(base));
    list.extend(spare(base));
    list
}

/// Bytes more or fewer than whole records.
fn lengths() -> Vec<Damage> {
    let mut list = Vec::new();
    for more in [1, 4, 18, 32, 35] {
        list.on_inputs(4, format!("sheet with {more} bytes more"), move |inputs| {
            inputs.sheet.extend(vec![0xff; more])
        });
    }
    for rest in [1, 35] {
        list.on_inputs(4, format!("sheet of {rest} bytes"), move |inputs| {
            inputs.sheet.resize(rest, 0)
        });
    }
    list.on_inputs(4, "sheet with a byte before it", |inputs| {
        inputs.sheet.insert(0, 0)
    });
    list.on_inputs(4, "sheet with a byte fewer at the end", |inputs| {
        if inputs.sheet.pop().is_none() {
            inputs.sheet.push(0);
        }
    });
    list
}

const OUTPUT: Digest = [0x33; limits::DIGEST];

/// Versions that fall or stand twice.
fn orders(base: &Base) -> Vec<Damage> {
    let count = base.exchange.sheet.len();
    let mut list = Vec::new();
    for at in 1..count {
        let name = format!("sheet's records {} and {at} swapped", at - 1);
        list.on_exchange(4, name, move |exchange| exchange.sheet.swap(at - 1, at));
        let name = format!("sheet's record {at} of the version before");
        list.on_exchange(4, name, move |exchange| {
            exchange.sheet[at].0 = exchange.sheet[at - 1].0;
        });
    }
    for at in 0..count {
        list.on_exchange(4, format!("sheet's record {at} doubled"), move |exchange| {
            exchange.sheet.insert(at, exchange.sheet[at]);
        });
    }
    if count > 1 {
        list.on_exchange(4, "sheet reversed", |exchange| exchange.sheet.reverse());
        list.on_exchange(4, "sheet's last version as 0", move |exchange| {
            exchange.sheet[count - 1].0 = 0;
        });
    }
    list
}

/// Records behind the others that do not rise.
fn endings() -> Vec<Damage> {
    let mut list = Vec::new();
    list.on_exchange(
        4,
        "sheet with a version twice behind the others",
        |exchange| {
            exchange
                .sheet
                .extend([(u32::MAX, OUTPUT), (u32::MAX, OUTPUT)]);
        },
    );
    list.on_exchange(4, "sheet with version 0 behind the others", |exchange| {
        exchange.sheet.extend([(1, OUTPUT), (0, OUTPUT)]);
    });
    list
}

/// A step's version that is not there, or stands under its neighbour's number.
fn missing(base: &Base) -> Vec<Damage> {
    let mut list = Vec::new();
    for step in &base.response().steps {
        let version = step.version;
        list.on_exchange(
            10,
            format!("sheet without version {version}"),
            move |exchange| {
                exchange.sheet.retain(|record| record.0 != version);
            },
        );
        let unused = |next: &u32| base.exchange.sheet.iter().all(|record| record.0 != *next);
        if let Some(next) = version.checked_add(1).filter(unused) {
            let name = format!("sheet with {next} for version {version}");
            list.on_exchange(10, name, move |exchange| {
                let records = exchange.sheet.iter_mut();
                records
                    .filter(|record| record.0 == version)
                    .for_each(|record| record.0 = next);
            });
        }
    }
    if !base.response().steps.is_empty() {
        list.on_exchange(10, "empty sheet", |exchange| exchange.sheet.clear());
    }
    list
}

/// Versions nobody asked for do no harm.
fn spare(base: &Base) -> Vec<Damage> {
    let unused = |version: &u32| {
        base.exchange
            .sheet
            .iter()
            .all(|(other, _)| other != version)
    };
    [0, 2, 4, 1_000, limits::VERSION, u32::MAX]
        .into_iter()
        .filter(unused)
        .map(|version| {
            Damage::on_exchange(
                0,
                format!("sheet with version {version} too"),
                move |exchange| {
                    exchange.sheet.push((version, OUTPUT));
                    exchange.sheet.sort();
                },
            )
        })
        .collect()
}
