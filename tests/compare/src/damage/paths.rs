//! Number 12: lookups that do not lead to their prefix root, and other leaves that are not as said
//! (paper 01, Trees).

use super::leaves::flipped;
use super::{Damage, Damages};
use crate::base::Base;
use crate::limits;
use honest_log::hashes::EMPTY;
use honest_log::model::{Digest, Entry, Kind, Lookup, LookupResult};

pub fn damages(base: &Base) -> Vec<Damage> {
    let mut list = Vec::new();
    for (entry, shown) in base.exchange.response.entries.iter().enumerate() {
        for (which, lookup) in shown.lookups.iter().enumerate() {
            let place = Place {
                entry,
                which,
                position: shown.position,
            };
            list.extend(siblings(&place, lookup));
            list.extend(results(base, &place, lookup));
        }
        if !shown.lookups.is_empty() {
            list.extend(prefix_roots(entry, shown));
        }
    }
    list.extend(commitments(base));
    list.extend(outputs(base));
    list
}

/// A lookup of the response.
#[derive(Clone, Copy)]
struct Place {
    entry: usize,
    which: usize,
    position: u64,
}

impl Place {
    fn damage(
        &self,
        number: u8,
        name: &str,
        lookup: &Lookup,
        change: impl Fn(&mut Lookup) + 'static,
    ) -> Damage {
        let Place {
            entry,
            which,
            position,
        } = *self;
        let name = format!("{name}, version {} at {position}", lookup.version);
        Damage::on_exchange(number, name, move |exchange| {
            change(&mut exchange.response.entries[entry].lookups[which])
        })
    }
}

/// One sibling other, more, fewer, or at another place.
fn siblings(place: &Place, lookup: &Lookup) -> Vec<Damage> {
    let count = lookup.siblings.len();
    let mut list = Vec::new();
    let mut on = |name: String, change: fn(&mut Vec<Digest>, usize), at: usize| {
        list.push(place.damage(12, &name, lookup, move |lookup| {
            change(&mut lookup.siblings, at)
        }));
    };
    for at in 0..count {
        let first_bit = |siblings: &mut Vec<Digest>, at: usize| siblings[at][0] ^= 0x80;
        let last_bit = |siblings: &mut Vec<Digest>, at: usize| siblings[at][31] ^= 1;
        on(format!("sibling {at} off by its first bit"), first_bit, at);
        on(format!("sibling {at} off by its last bit"), last_bit, at);
        if at > 0 && lookup.siblings[at] != lookup.siblings[at - 1] {
            let swap = |siblings: &mut Vec<Digest>, at: usize| siblings.swap(at - 1, at);
            on(format!("siblings {} and {at} swapped", at - 1), swap, at);
        }
    }
    if count > 0 {
        let remove = |siblings: &mut Vec<Digest>, at: usize| drop(siblings.drain(at..=at));
        on("first sibling left out".to_string(), remove, 0);
        on("last sibling left out".to_string(), remove, count - 1);
        on("no siblings".to_string(), |siblings, _| siblings.clear(), 0);
    }
    if count < limits::SIBLINGS {
        let zero = |siblings: &mut Vec<Digest>, at: usize| siblings.insert(at, EMPTY);
        on("a zero sibling before the first".to_string(), zero, 0);
        on("a zero sibling behind the last".to_string(), zero, count);
        let nine = |siblings: &mut Vec<Digest>, at: usize| siblings.insert(at, [9; 32]);
        on("a sibling more behind the last".to_string(), nine, count);
    }
    list
}

/// The lookup with another result and the same siblings.
fn results(base: &Base, place: &Place, lookup: &Lookup) -> Vec<Damage> {
    let target = base.exchange.response.target.as_ref();
    let above = target.is_some_and(|target| lookup.version > target.version);
    let made_up = LookupResult::OtherLeaf {
        output: [0x66; 32],
        commitment: [0x77; 32],
    };
    let mut others = vec![(12, "shown as nl of a made-up leaf".to_string(), made_up)];
    if lookup.result != LookupResult::Inclusion {
        let number = if above { 13 } else { 12 };
        others.push((number, "shown as in".to_string(), LookupResult::Inclusion));
    }
    if lookup.result != LookupResult::EmptyPlace {
        others.push((12, "shown as no".to_string(), LookupResult::EmptyPlace));
    }
    if let LookupResult::OtherLeaf { output, commitment } = lookup.result {
        for bit in [0, 100, 255] {
            let result = LookupResult::OtherLeaf {
                output: flipped(&output, bit),
                commitment,
            };
            others.push((12, format!("other output off by bit {bit}"), result));
        }
        let result = LookupResult::OtherLeaf {
            output,
            commitment: flipped(&commitment, 255),
        };
        others.push((12, "other commitment off by a bit".to_string(), result));
    }
    let damage = |(number, name, result): (u8, String, LookupResult)| {
        place.damage(number, &name, lookup, move |lookup| {
            lookup.result = result.clone()
        })
    };
    let mut list: Vec<Damage> = others.into_iter().map(damage).collect();
    if lookup.result == LookupResult::Inclusion {
        list.extend(own_leaf(base, place, lookup));
    }
    list
}

/// A leaf that is there shown as the other leaf of its own search: the path is right, the claim is
/// not.
fn own_leaf(base: &Base, place: &Place, lookup: &Lookup) -> Option<Damage> {
    let output = base.log.output(base.label(), lookup.version);
    let commitment = base
        .log
        .entry(place.position)
        .prefix_tree
        .commitment(&output)?;
    let result = LookupResult::OtherLeaf { output, commitment };
    let name = "shown as nl of the searched leaf";
    Some(place.damage(12, name, lookup, move |lookup| {
        lookup.result = result.clone()
    }))
}

/// Another prefix root than the lookups lead to.
fn prefix_roots(entry: usize, shown: &Entry) -> Vec<Damage> {
    let position = shown.position;
    let change = |name: String, change: fn(&mut [u8; 32])| {
        Damage::on_exchange(12, name, move |exchange| {
            change(&mut exchange.response.entries[entry].prefix_root)
        })
    };
    let mut list = vec![
        change(
            format!("prefix root at {position} off by its first bit"),
            |root| root[0] ^= 0x80,
        ),
        change(
            format!("prefix root at {position} off by its last bit"),
            |root| root[31] ^= 1,
        ),
    ];
    if shown.prefix_root != EMPTY {
        list.push(change(
            format!("prefix root at {position} all zero"),
            |root| root.fill(0),
        ));
    }
    list
}

/// The lookups of a version.
fn lookups_of(base: &Base, version: u32) -> Vec<&Lookup> {
    let entries = base.exchange.response.entries.iter();
    let lookups = entries.flat_map(|entry| &entry.lookups);
    lookups.filter(|lookup| lookup.version == version).collect()
}

/// Whether a lookup says that its version's leaf is there.
fn is_there(lookup: &&Lookup) -> bool {
    lookup.result == LookupResult::Inclusion
}

/// Commitments of steps, which matter for leaves that are there, and what the target's is computed
/// from.
fn commitments(base: &Base) -> Vec<Damage> {
    let mut list = Vec::new();
    for (at, step) in base.exchange.response.steps.iter().enumerate() {
        if step.commitment.is_some() {
            let there = lookups_of(base, step.version).iter().any(is_there);
            let number = if there { 12 } else { 0 };
            let name = format!("commitment of {} off by a bit", step.version);
            list.on_exchange(number, name, move |exchange| {
                if let Some(commitment) = &mut exchange.response.steps[at].commitment {
                    commitment[17] ^= 4;
                }
            });
        }
    }
    if base.exchange.kind == Kind::Search {
        list.extend(targets(base));
    }
    list
}

/// What opening and value become, by name.
type OnTarget = (&'static str, fn(&mut Vec<u8>, &mut Vec<u8>));

const OPENINGS: [OnTarget; 2] = [
    ("opening off by its first bit", |opening, _| {
        opening[0] ^= 0x80
    }),
    ("opening off by its last bit", |opening, _| opening[15] ^= 1),
];

/// For values of at least one byte.
const SHORTER: [OnTarget; 4] = [
    ("value off by its first bit", |_, value| value[0] ^= 0x80),
    ("value off by its last bit", |_, value| {
        let last = value.len() - 1;
        value[last] ^= 1;
    }),
    ("value with a byte fewer", |_, value| {
        value.truncate(value.len() - 1)
    }),
    ("no value", |_, value| value.clear()),
];

/// For values below their limit.
const LONGER: [OnTarget; 2] = [
    ("value with a zero byte more", |_, value| value.push(0)),
    ("value of 1,024 bytes by zero bytes", |_, value| {
        value.resize(limits::VALUE, 0)
    }),
];

fn targets(base: &Base) -> Vec<Damage> {
    let length = base
        .exchange
        .response
        .target
        .as_ref()
        .map_or(0, |target| target.value.len());
    let mut changes = OPENINGS.to_vec();
    if length > 0 {
        changes.extend(SHORTER);
    }
    if length < limits::VALUE {
        changes.extend(LONGER);
    }
    let mut list = Vec::new();
    for (name, change) in changes {
        list.on_exchange(12, name, move |exchange| {
            if let Some(target) = &mut exchange.response.target {
                change(&mut target.opening, &mut target.value);
            }
        });
    }
    list
}

/// One bit of an output in the sheet: it matters for a leaf that is there, and on the way to a
/// place.
fn outputs(base: &Base) -> Vec<Damage> {
    let mut list = Vec::new();
    for (at, (version, _)) in base.exchange.sheet.iter().enumerate() {
        let lookups = lookups_of(base, *version);
        let depth = lookups
            .iter()
            .map(|lookup| lookup.siblings.len())
            .max()
            .unwrap_or(0);
        let there = lookups.iter().any(is_there);
        for bit in [0, depth.saturating_sub(1), depth, 255] {
            let output = flipped(&base.exchange.sheet[at].1, bit);
            let becomes_other = lookups.iter().any(|lookup| match lookup.result {
                LookupResult::OtherLeaf { output: other, .. } => other == output,
                _ => false,
            });
            let number = if there || bit < depth || becomes_other {
                12
            } else {
                0
            };
            let name = format!("output of {version} in the sheet off by bit {bit}");
            list.on_exchange(number, name, move |exchange| exchange.sheet[at].1 = output);
        }
    }
    list
}
