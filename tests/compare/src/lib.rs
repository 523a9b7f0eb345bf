//! Calls for comparing checkers, most with the answer that is known from how they were made, and the comparison of a
//! program and of a C library with the second program on them.
//!
//! Cases: `honest` calls, `examples` of paper 01, `damage` for each number, `several` causes at once, `random` changes,
//! `folders` for the program, `small` ones. Comparison: `program`, `library`, `tally`.

pub mod base;
pub mod case;
pub mod damage;
pub mod examples;
pub mod folders;
pub mod honest;
pub mod library;
pub mod limits;
pub mod making;
pub mod program;
pub mod random;
pub mod selection;
pub mod several;
pub mod small;
pub mod stream;
pub mod tally;
pub mod text;

use case::{Case, Folder};
use std::collections::BTreeSet;

/// The first of each name.
fn distinct<T>(mut list: Vec<T>, name: fn(&T) -> &str) -> Vec<T> {
    let mut seen = BTreeSet::new();
    list.retain(|element| seen.insert(name(element).to_string()));
    list
}

/// All cases that are the same in every run.
pub fn named() -> Vec<Case> {
    let mut list = honest::fixed();
    list.extend(examples::cases());
    list.extend(damage::fixed());
    list.extend(several::all());
    distinct(list, |case| &case.name)
}

/// Endlessly many cases, the same for the same seed.
pub fn stream(seed: u64) -> impl Iterator<Item = Case> {
    stream::Stream::new(seed)
}

/// The program's own cases: fixed ones, and combinations that are the same for the same seed.
pub fn folders(seed: u64) -> Vec<Folder> {
    let mut list = folders::fixed();
    list.extend(folders::random(seed));
    distinct(list, |folder| &folder.name)
}

/// Cases that hash few blocks.
pub fn small() -> Vec<Case> {
    distinct(small::all(), |case| &case.name)
}
