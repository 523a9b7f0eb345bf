//! The program's request line: kind, identifier and clock, and every way to break it (paper 01,
//! Sixteen numbers).

use super::folder;
use crate::base::Base;
use crate::case::{Answer, Folder, Inputs};
use crate::limits;
use honest_log::model::{hex, Kind};

/// The three fields of a request line.
pub struct Request {
    pub kind: String,
    pub identifier: String,
    pub clock: String,
}

impl Request {
    pub fn of(base: &Base) -> Request {
        Request {
            kind: base.exchange.kind.word().to_string(),
            identifier: hex(&base.exchange.identifier),
            clock: base.exchange.clock.to_string(),
        }
    }

    pub fn line(&self) -> String {
        format!("{}\t{}\t{}\n", self.kind, self.identifier, self.clock)
    }
}

/// The honest folder with another request file.
fn with(base: &Base, number: u8, request: impl Into<Vec<u8>>) -> Folder {
    let request = request.into();
    let mut files = Inputs::of(&base.exchange).files();
    let name = format!(
        "{}: request {:?}",
        base.name,
        String::from_utf8_lossy(&request)
    );
    files.request = Some(request);
    folder(name, files, Answer::of(number, &base.exchange))
}

pub fn folders(base: &Base) -> Vec<Folder> {
    let mut list = kinds(base);
    list.extend(identifiers(base));
    list.extend(other_identifiers(base));
    list.extend(clocks(base));
    list.extend(lines(base));
    list.extend(long_lines(base));
    list
}

fn kinds(base: &Base) -> Vec<Folder> {
    let other = match base.exchange.kind {
        Kind::Search => "monitor",
        Kind::Monitor => "search",
    };
    let words = [
        other, "", "-", "Search", "SEARCH", "searchx", "searc", "Monitor", "monito", "fixed", "0",
        " search", "search ",
    ];
    words
        .into_iter()
        .map(|word| {
            with(
                base,
                6,
                Request {
                    kind: word.to_string(),
                    ..Request::of(base)
                }
                .line(),
            )
        })
        .collect()
}

/// Whole bytes of another length are 1.
fn identifiers(base: &Base) -> Vec<Folder> {
    let mut whole: Vec<String> = [1, 2, 8, 15, 17, 20, 32, 40]
        .map(|bytes| "5a".repeat(bytes))
        .to_vec();
    whole.push("-".to_string());
    let mut list = Vec::new();
    for identifier in whole {
        list.extend(broken_elsewhere(base, &identifier));
        list.push(with(
            base,
            1,
            Request {
                identifier,
                ..Request::of(base)
            }
            .line(),
        ));
    }
    list
}

/// Anything that is not whole bytes, and other bytes of the right length, are 6.
fn other_identifiers(base: &Base) -> Vec<Folder> {
    let right = Request::of(base).identifier;
    let rest = &right[1..];
    let others = [
        String::new(),
        "5".to_string(),
        "0x00".to_string(),
        "--".to_string(),
        "zz".to_string(),
        rest.to_string(),
        format!("{right}0"),
        "AB".repeat(limits::IDENTIFIER),
        format!("{rest}g"),
        format!("{right} "),
        format!("-{rest}"),
        "00".repeat(limits::IDENTIFIER),
        format!("0{rest}"),
    ];
    let line = |identifier: String| {
        Request {
            identifier,
            ..Request::of(base)
        }
        .line()
    };
    others
        .map(|identifier| with(base, 6, line(identifier)))
        .into()
}

/// The identifier's length does not matter in a line that is broken elsewhere.
fn broken_elsewhere(base: &Base, identifier: &str) -> Vec<Folder> {
    let request = || Request {
        identifier: identifier.to_string(),
        ..Request::of(base)
    };
    let line = request().line();
    let broken = [
        Request {
            kind: "find".to_string(),
            ..request()
        }
        .line(),
        Request {
            clock: "18446744073709551616".to_string(),
            ..request()
        }
        .line(),
        line.trim_end().to_string(),
        line + "\n",
    ];
    broken.into_iter().map(|line| with(base, 6, line)).collect()
}

/// Clocks that are no numbers or pass 2^64 are 6; those that can be read are judged as always.
fn clocks(base: &Base) -> Vec<Folder> {
    let right = base.exchange.clock;
    let mut clocks: Vec<(u8, String)> = BROKEN_CLOCKS.map(|clock| (6, clock.to_string())).into();
    clocks.extend([
        (6, format!("0{right}")),
        (6, format!("+{right}")),
        (6, format!("{right} ")),
        (6, format!(" {right}")),
        (6, format!("{right}ms")),
        (11, "0".to_string()),
        (11, u64::MAX.to_string()),
    ]);
    let line = |clock: String| {
        Request {
            clock,
            ..Request::of(base)
        }
        .line()
    };
    clocks
        .into_iter()
        .map(|(number, clock)| with(base, number, line(clock)))
        .collect()
}

const BROKEN_CLOCKS: [&str; 11] = [
    "18446744073709551616",
    "99999999999999999999",
    "1000000000000000000000000000000",
    "",
    "-",
    "+1",
    "-1",
    "0x10",
    "1.0",
    "1e3",
    "00",
];

/// What stands before, between and after the fields.
fn lines(base: &Base) -> Vec<Folder> {
    let line = Request::of(base).line();
    let fields: Vec<&str> = line.trim_end().split('\t').collect();
    let broken = [
        line.trim_end().to_string(),
        line.clone() + "\n",
        line.clone() + " ",
        line.clone() + "\0",
        line.clone() + &line,
        line.replace('\n', "\r\n"),
        line.replace('\n', "\r"),
        line.replace('\n', "\t\n"),
        line.replace('\n', "\t0\n"),
        line.replace('\n', "\0"),
        line.replace('\t', " "),
        line.replace('\t', "\t\t"),
        format!("\t{line}"),
        format!(" {line}"),
        format!("\n{line}"),
        format!("\u{feff}{line}"),
        "\n".to_string(),
        "\t\t\n".to_string(),
        "\0".to_string(),
        format!("{}\n", fields[0]),
        format!("{}\t{}\n", fields[0], fields[1]),
        format!("{}\t{}\n", fields[0], fields[2]),
        format!("{}\t{}\t{}\n", fields[1], fields[0], fields[2]),
        format!("{}\t{}\t{}\n", fields[0], fields[2], fields[1]),
        format!("kt\t{line}"),
        format!("{}\t{}\t\n", fields[0], fields[1]),
        format!("{}\t\t{}\n", fields[0], fields[2]),
    ];
    let mut list: Vec<Folder> = broken.into_iter().map(|line| with(base, 6, line)).collect();
    list.push(with(
        base,
        6,
        [&line.as_bytes()[..line.len() - 1], b"\xff\n"].concat(),
    ));
    list
}

/// Lines of 128 bytes, the longest that are read, and of 129.
fn long_lines(base: &Base) -> Vec<Folder> {
    let request = Request::of(base);
    let rest = request.line().len() - request.identifier.len();
    let bytes = (limits::REQUEST - rest) / 2;
    let whole = Request {
        identifier: "5a".repeat(bytes),
        ..Request::of(base)
    }
    .line();
    let odd = Request {
        identifier: "5".repeat(2 * bytes - 1),
        ..Request::of(base)
    }
    .line();
    let more = Request {
        identifier: "5a".repeat(bytes + 1),
        ..Request::of(base)
    }
    .line();
    let mut list = vec![
        with(base, 1, whole),
        with(base, 6, odd),
        with(base, 1, more),
    ];
    for (length, number) in [(limits::REQUEST, 6), (limits::REQUEST + 1, 1)] {
        let mut line = request.line();
        while line.len() < length {
            line.insert(0, 's');
        }
        list.push(with(base, number, line));
    }
    list
}
