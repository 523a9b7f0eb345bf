//! A broken request line beside other files that are wrong: it counts after numbers 1 to 5 and
//! before all others (paper 01, Sixteen numbers).

use super::requests::Request;
use super::{file, folder};
use crate::base::Base;
use crate::case::{Answer, Folder, Inputs};
use crate::limits;

/// What is wrong with another file, and the number it leads to beside a broken request line.
type Spoilt = (&'static str, &'static str, fn(&mut Vec<u8>), u8);

const SPOILT: [Spoilt; 8] = [
    (
        "signed",
        "too long",
        |bytes| bytes.resize(limits::SIGNED + 1, 0),
        1,
    ),
    ("settings", "of another suite", |bytes| bytes[1] = 2, 2),
    ("settings", "with a byte more", |bytes| bytes.push(0), 2),
    ("state", "with a byte more", |bytes| bytes.push(b'x'), 3),
    ("sheet", "with a byte more", |bytes| bytes.push(0), 4),
    ("response", "with a line more", |bytes| bytes.push(b'\n'), 5),
    ("response", "of no kind", |bytes| bytes[9] ^= 1, 5),
    ("signed", "empty", |bytes| bytes.clear(), 6),
];

/// Every such pair of wrong files.
pub fn folders(base: &Base) -> Vec<Folder> {
    let mut list = Vec::new();
    let broken = Request {
        clock: "x".to_string(),
        ..Request::of(base)
    }
    .line();
    let short = Request {
        identifier: "5a".to_string(),
        ..Request::of(base)
    }
    .line();
    for (name, how, spoil, number) in SPOILT {
        for (line, number) in [(&broken, number), (&short, 1)] {
            let mut files = Inputs::of(&base.exchange).files();
            files.request = Some(line.clone().into_bytes());
            if let Some(contents) = file(&mut files, name) {
                spoil(contents);
            }
            let what = format!("{}: request {line:?}, {name} {how}", base.name);
            list.push(folder(what, files, Answer::Refused(number)));
        }
    }
    for name in ["response", "settings", "state", "sheet", "signed"] {
        let mut files = Inputs::of(&base.exchange).files();
        files.request = Some(broken.clone().into_bytes());
        *file(&mut files, name) = None;
        let what = format!("{}: request broken, {name} missing", base.name);
        list.push(folder(what, files, Answer::Refused(1)));
    }
    list
}
