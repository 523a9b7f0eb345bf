//! Number 9 in lookups: none, or other versions than the ladder's (paper 01, Ladder, search,
//! monitoring).

use super::{Damage, Damages};
use crate::base::Base;
use honest_log::model::Lookup;

/// A lookup that belongs to no ladder of the bases.
const STRANGE: u32 = 1 << 20;

pub fn damages(base: &Base) -> Vec<Damage> {
    let mut list = Vec::new();
    for at in 0..base.response().entries.len() {
        list.extend(single(base, at));
        list.extend(neighbours(base, at));
        list.extend(whole(base, at));
    }
    if base.found().is_some() {
        let last = base.response().entries.len() - 1;
        let again = base.lookup(base.response().size - 1, 0);
        list.on_response("ladder begun again at the last entry", move |response| {
            response.entries[last].lookups.push(again.clone());
        });
    }
    list
}

/// A change of one entry's lookups.
fn on_lookups(
    list: &mut Vec<Damage>,
    name: String,
    at: usize,
    change: impl Fn(&mut Vec<Lookup>) + 'static,
) {
    list.on_response(name, move |response| {
        change(&mut response.entries[at].lookups)
    });
}

/// A lookup doubled, or of another version.
fn single(base: &Base, at: usize) -> Vec<Damage> {
    let entry = &base.response().entries[at];
    let mut list = Vec::new();
    for which in 0..entry.lookups.len() {
        let name = format!("lookup {which} at {} doubled", entry.position);
        on_lookups(&mut list, name, at, move |lookups| {
            lookups.insert(which, lookups[which].clone());
        });
        let name = format!("lookup {which} at {} of another version", entry.position);
        on_lookups(&mut list, name, at, move |lookups| {
            lookups[which].version ^= 0x0100_0000;
        });
    }
    list
}

/// A lookup swapped with the next one, or left out before it; the last one may be left out in a
/// search, where another number judges that.
fn neighbours(base: &Base, at: usize) -> Vec<Damage> {
    let entry = &base.response().entries[at];
    let mut list = Vec::new();
    for which in 1..entry.lookups.len() {
        let before = which - 1;
        let name = format!("lookup {before} at {} left out", entry.position);
        on_lookups(&mut list, name, at, move |lookups| {
            lookups.remove(before);
        });
        let name = format!("lookups {before} and {which} at {} swapped", entry.position);
        on_lookups(&mut list, name, at, move |lookups| {
            lookups.swap(before, which)
        });
    }
    list
}

/// All lookups left out, or one too many.
fn whole(base: &Base, at: usize) -> Vec<Damage> {
    let entry = &base.response().entries[at];
    let mut list = Vec::new();
    if !entry.lookups.is_empty() {
        let name = format!("no lookups at {}", entry.position);
        on_lookups(&mut list, name, at, |lookups| lookups.clear());
    }
    let more = base.lookup(entry.position, STRANGE);
    let name = format!("a lookup of 2^20 too at {}", entry.position);
    on_lookups(&mut list, name, at, move |lookups| {
        lookups.push(more.clone())
    });
    list
}
