//! Runs of the program that are more than a call of the library: files that are missing, empty, too
//! long or at their limits, and request lines of every kind (paper 01, Sixteen numbers).

use crate::base::{self, Base};
use crate::case::{Answer, Case, Files, Folder, Inputs};
use crate::damage;
use crate::honest::lengths::search_of_length;
use crate::limits;
use honest_log::Random;

pub mod beside;
pub mod requests;

/// The files by name.
pub const NAMES: [&str; 6] = [
    "request", "response", "settings", "state", "sheet", "signed",
];

/// A file of the folder, by name.
pub fn file<'a>(files: &'a mut Files, name: &str) -> &'a mut Option<Vec<u8>> {
    match name {
        "request" => &mut files.request,
        "response" => &mut files.response,
        "settings" => &mut files.settings,
        "state" => &mut files.state,
        "sheet" => &mut files.sheet,
        _ => &mut files.signed,
    }
}

pub fn folder(name: impl Into<String>, files: Files, answer: Answer) -> Folder {
    Folder {
        name: name.into(),
        files,
        answer: Some(answer),
    }
}

/// The files of an honest exchange with one changed.
fn with(base: &Base, name: &str, what: &str, number: u8, contents: Option<Vec<u8>>) -> Folder {
    let mut files = Inputs::of(&base.exchange).files();
    *file(&mut files, name) = contents;
    folder(
        format!("{}: {name} {what}", base.name),
        files,
        Answer::of(number, &base.exchange),
    )
}

pub fn fixed() -> Vec<Folder> {
    let mut list = Vec::new();
    for base in base::fixed().iter().step_by(2) {
        list.push(of_case(&Case::of(&base.name, 0, &base.exchange)));
        list.extend(missing(base));
        list.extend(empty(base));
        list.extend(too_long(base));
        list.extend(requests::folders(base));
        list.extend(beside::folders(base));
    }
    list.extend(at_their_limits(&base::fixed()[0]));
    list.extend(long_responses());
    list
}

/// The program's run of a library's call. It reads shorter responses, and its room is enough for every value: what was
/// refused for room may be accepted, so that its answer is not known.
pub fn of_case(case: &Case) -> Folder {
    let answer = if case.inputs.response.len() > limits::PROGRAM_RESPONSE
        || case.inputs.request().len() > limits::REQUEST
    {
        Some(Answer::Refused(1))
    } else if case.room < limits::VALUE && case.answer == Some(Answer::Refused(16)) {
        None
    } else {
        case.answer.clone()
    };
    Folder {
        name: case.name.clone(),
        files: case.inputs.files(),
        answer,
    }
}

fn missing(base: &Base) -> Vec<Folder> {
    let mut list: Vec<Folder> = NAMES
        .iter()
        .map(|name| with(base, name, "missing", 1, None))
        .collect();
    let none = Files {
        request: None,
        response: None,
        settings: None,
        state: None,
        sheet: None,
        signed: None,
    };
    list.push(folder("no file at all", none, Answer::Refused(1)));
    list
}

fn empty(base: &Base) -> Vec<Folder> {
    let sheet = if base.exchange.response.steps.is_empty() {
        0
    } else {
        10
    };
    let numbers = [6, 5, 2, 3, sheet, 15];
    NAMES
        .iter()
        .zip(numbers)
        .map(|(name, number)| with(base, name, "empty", number, Some(Vec::new())))
        .collect()
}

/// Each file filled up to its limit and one byte more.
fn too_long(base: &Base) -> Vec<Folder> {
    let limits = [
        ("request", limits::REQUEST, 6),
        ("response", limits::PROGRAM_RESPONSE, 5),
        ("settings", limits::SETTINGS, 2),
        ("state", limits::STATE, 3),
        ("sheet", limits::SHEET, 4),
        ("signed", limits::SIGNED, 15),
    ];
    let mut list = Vec::new();
    for (name, limit, number) in limits {
        let mut files = Inputs::of(&base.exchange).files();
        let contents = file(&mut files, name).clone().unwrap_or_default();
        let filled = |length: usize| {
            let mut contents = contents.clone();
            contents.resize(length, 0);
            Some(contents)
        };
        list.push(with(
            base,
            name,
            "filled to its limit",
            number,
            filled(limit),
        ));
        list.push(with(base, name, "one past its limit", 1, filled(limit + 1)));
        list.push(with(base, name, "far past its limit", 1, filled(3 * limit)));
    }
    list
}

/// Files that are as long as they may be and right.
fn at_their_limits(base: &Base) -> Vec<Folder> {
    damage::lengths::damages(base)
        .iter()
        .filter(|damage| damage.number == 0)
        .map(|damage| of_case(&damage.apply(base)))
        .collect()
}

/// The program reads shorter responses than the library.
fn long_responses() -> Vec<Folder> {
    let limit = limits::PROGRAM_RESPONSE;
    [(limit - 1, 0), (limit, 0), (limit + 1, 1), (2 * limit, 1)]
        .into_iter()
        .map(|(length, number)| {
            let exchange = search_of_length(length).exchange;
            let files = Inputs::of(&exchange).files();
            folder(
                format!("response of {length} bytes"),
                files,
                Answer::of(number, &exchange),
            )
        })
        .collect()
}

/// Random combinations: up to three files wrong in different ways, the lowest number given.
pub fn random(seed: u64) -> Vec<Folder> {
    let mut random = Random::new(seed);
    let bases = base::fixed();
    (0..300)
        .map(|_| combined(random.pick(&bases).clone(), &mut random))
        .collect()
}

fn combined(base: Base, random: &mut Random) -> Folder {
    let mut files = Inputs::of(&base.exchange).files();
    let mut lowest = 0;
    let mut names = Vec::new();
    for name in NAMES {
        if !random.one_in(4) {
            continue;
        }
        let contents = file(&mut files, name).clone().unwrap_or_default();
        let (what, number, changed) = spoilt(name, contents, random);
        *file(&mut files, name) = changed;
        names.push(format!("{name} {what}"));
        lowest = if lowest == 0 {
            number
        } else {
            lowest.min(number)
        };
    }
    let name = format!("{}: {}", base.name, names.join("; "));
    folder(name, files, Answer::of(lowest, &base.exchange))
}

/// A file missing, too long, or wrong in its own way.
fn spoilt(
    name: &str,
    mut contents: Vec<u8>,
    random: &mut Random,
) -> (&'static str, u8, Option<Vec<u8>>) {
    let (limit, number) = match name {
        "request" => (limits::REQUEST, 6),
        "response" => (limits::PROGRAM_RESPONSE, 5),
        "settings" => (limits::SETTINGS, 2),
        "state" => (limits::STATE, 3),
        "sheet" => (limits::SHEET, 4),
        _ => (limits::SIGNED, 15),
    };
    match random.below(6) {
        0 => ("missing", 1, None),
        1 => {
            contents.resize(limit + 1, 0);
            ("one past its limit", 1, Some(contents))
        }
        _ => {
            contents.push(0);
            ("with a byte more", number, Some(contents))
        }
    }
}
