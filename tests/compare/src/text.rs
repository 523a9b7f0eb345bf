//! Texts of tab-parted lines, taken apart so that any line or field can be changed (paper 01,
//! Response lines).

/// Lines of fields; nothing is checked.
#[derive(Clone, Debug)]
pub struct Lines(pub Vec<Vec<Vec<u8>>>);

impl Lines {
    /// A text whose last line ends in 0x0A.
    pub fn read(text: &[u8]) -> Lines {
        let mut lines: Vec<Vec<Vec<u8>>> = text
            .split(|byte| *byte == b'\n')
            .map(|line| {
                line.split(|byte| *byte == b'\t')
                    .map(<[u8]>::to_vec)
                    .collect()
            })
            .collect();
        lines.pop();
        Lines(lines)
    }

    pub fn text(&self) -> Vec<u8> {
        let mut text = Vec::new();
        for line in &self.0 {
            text.extend(line.join(&b'\t'));
            text.push(b'\n');
        }
        text
    }

    /// Where lines of a word stand.
    pub fn of(&self, word: &str) -> Vec<usize> {
        (0..self.0.len())
            .filter(|index| self.0[*index][0] == word.as_bytes())
            .collect()
    }
}

/// The line of a text, as fields.
pub fn line(text: &str) -> Vec<Vec<u8>> {
    text.split('\t')
        .map(|field| field.as_bytes().to_vec())
        .collect()
}

/// What a field may be (paper 01, Response lines).
#[derive(Clone, Copy, Debug, PartialEq, Eq)]
pub enum Form {
    /// A word that must be as it is.
    Word,
    /// A decimal number up to a limit.
    Number(u64),
    /// Bytes of one length.
    Bytes(usize),
    /// Bytes up to a length.
    UpTo(usize),
    /// 32 bytes or none.
    Commitment,
    /// 32 bytes each, up to 255 of them.
    Siblings,
}

/// The forms of the fields of a line, by its word: a response's or a state's.
pub fn forms(word: &[u8]) -> Vec<Form> {
    use crate::limits::{DIGEST, IDENTIFIER, LABEL, OPENING, VALUE};
    use Form::{Bytes, Commitment, Number, Siblings, UpTo, Word};
    const POSITION: Form = Number(u64::MAX);
    const VERSION: Form = Number(u32::MAX as u64);
    match word {
        b"kt" => vec![Word, Word, Bytes(IDENTIFIER), UpTo(LABEL)],
        b"head" => vec![Word, POSITION],
        b"target" => vec![Word, VERSION, Bytes(OPENING), UpTo(VALUE)],
        b"step" => vec![Word, VERSION, Commitment],
        b"entry" => vec![Word, POSITION, POSITION, Bytes(DIGEST)],
        b"in" | b"no" => vec![Word, VERSION, Siblings],
        b"nl" => vec![Word, VERSION, Bytes(DIGEST), Bytes(DIGEST), Siblings],
        b"node" | b"keep" => vec![Word, Bytes(DIGEST)],
        b"size" => vec![Word, POSITION, POSITION, UpTo(LABEL)],
        b"pair" => vec![Word, POSITION, VERSION],
        _ => vec![Word],
    }
}

/// A way to break a field: its name and what it makes of the field.
pub type Edit = (&'static str, fn(&[u8]) -> Vec<u8>);

/// Every way to break a field of a form.
pub fn edits(form: Form) -> Vec<Edit> {
    let mut list = any_field();
    match form {
        Form::Word => list.extend(word()),
        Form::Number(limit) => list.extend(number(limit)),
        Form::Bytes(DIGEST_LENGTH) => list.extend([bytes(), length_of_32(), not_empty()].concat()),
        Form::Bytes(_) => list.extend([bytes(), length_of_16(), not_empty()].concat()),
        Form::UpTo(length) => list.extend([bytes(), over(length)].concat()),
        Form::Commitment => list.extend([bytes(), length_of_32()].concat()),
        Form::Siblings => list.extend([bytes(), siblings()].concat()),
    }
    list
}

const DIGEST_LENGTH: usize = crate::limits::DIGEST;

fn any_field() -> Vec<Edit> {
    vec![
        ("left empty", |_| Vec::new()),
        ("with a space before it", |field| [b" ", field].concat()),
        ("with a space behind it", |field| [field, b" "].concat()),
        ("with a tab before it", |field| [b"\t", field].concat()),
        ("with a tab behind it", |field| [field, b"\t"].concat()),
        ("with 0x0D behind it", |field| [field, b"\r"].concat()),
        ("with 0x0A before it", |field| [b"\n", field].concat()),
        ("with 0x00 behind it", |field| [field, b"\0"].concat()),
        ("with 0xFF behind it", |field| [field, b"\xff"].concat()),
    ]
}

fn word() -> Vec<Edit> {
    vec![
        ("in upper case", |field| field.to_ascii_uppercase()),
        ("with a letter more", |field| [field, b"x"].concat()),
        ("with a letter fewer", |field| {
            field[..field.len() - 1].to_vec()
        }),
        ("as another word", |_| b"word".to_vec()),
        ("as none", |_| b"-".to_vec()),
    ]
}

/// The number of a field with a power of two added, which a sum without bounds would lose.
fn raised(field: &[u8], power: u32) -> Vec<u8> {
    let number: u128 = String::from_utf8_lossy(field).parse().unwrap_or(0);
    (number + (1 << power)).to_string().into_bytes()
}

fn number(limit: u64) -> Vec<Edit> {
    let past: [Edit; 2] = if limit == u64::MAX {
        [
            ("as 2^64", |_| b"18446744073709551616".to_vec()),
            ("with 2^65 added", |field| raised(field, 65)),
        ]
    } else {
        [
            ("as 2^32", |_| b"4294967296".to_vec()),
            ("with 2^32 added", |field| raised(field, 32)),
        ]
    };
    vec![
        past[0],
        past[1],
        ("with 2^64 added", |field| raised(field, 64)),
        ("with a colon", |field| [field, b":"].concat()),
        ("with a slash", |field| [field, b"/"].concat()),
        ("with a leading zero", |field| [b"0", field].concat()),
        ("as 00", |_| b"00".to_vec()),
        ("with a plus", |field| [b"+", field].concat()),
        ("with a minus", |field| [b"-", field].concat()),
        ("as -", |_| b"-".to_vec()),
        ("with 0x before it", |field| [b"0x", field].concat()),
        ("with a letter behind it", |field| [field, b"a"].concat()),
        ("with a point", |field| [field, b".0"].concat()),
        ("as 10^30", |_| b"1000000000000000000000000000000".to_vec()),
        ("with a comma", |field| [field, b",000"].concat()),
    ]
}

/// A field of hex with another first byte.
fn begun(first: &[u8], field: &[u8]) -> Vec<u8> {
    [first, &field[field.len().min(2)..]].concat()
}

/// Ways that break hex of any length.
fn bytes() -> Vec<Edit> {
    vec![
        ("with a digit fewer", |field| match field {
            b"-" => b"0".to_vec(),
            _ => field[1..].to_vec(),
        }),
        ("with a digit more", |field| match field {
            b"-" => b"abc".to_vec(),
            _ => [field, b"0"].concat(),
        }),
        ("in upper case", |field| begun(b"AB", field)),
        ("with a g", |field| begun(b"ag", field)),
        ("with a colon", |field| begun(b"a:", field)),
        ("with a slash", |field| begun(b"/0", field)),
        ("with a grave accent", |field| begun(b"`0", field)),
        ("with an F", |field| begun(b"0F", field)),
        ("with a dash before it", |field| [b"-", field].concat()),
        ("with a dash behind it", |field| [field, b"-"].concat()),
        ("with 0x before it", |field| [b"0x", field].concat()),
        ("with a space inside", |field| begun(b"a ", field)),
    ]
}

/// A fixed length is never 0, which would be written as a dash.
fn not_empty() -> Vec<Edit> {
    vec![("as -", |_| b"-".to_vec())]
}

fn length_of_32() -> Vec<Edit> {
    vec![
        ("of 31 bytes", |_| b"5a".repeat(31)),
        ("of 33 bytes", |_| b"5a".repeat(33)),
        ("of 64 bytes", |_| b"5a".repeat(64)),
        ("of 1 byte", |_| b"5a".to_vec()),
    ]
}

fn length_of_16() -> Vec<Edit> {
    vec![
        ("of 15 bytes", |_| b"5a".repeat(15)),
        ("of 17 bytes", |_| b"5a".repeat(17)),
        ("of 32 bytes", |_| b"5a".repeat(32)),
        ("of 1 byte", |_| b"5a".to_vec()),
    ]
}

fn over(length: usize) -> Vec<Edit> {
    if length == crate::limits::LABEL {
        vec![
            ("of 256 bytes", |_| b"5a".repeat(256)),
            ("of 511 bytes", |_| b"5a".repeat(511)),
        ]
    } else {
        vec![
            ("of 1,025 bytes", |_| b"5a".repeat(1025)),
            ("of 2,048 bytes", |_| b"5a".repeat(2048)),
        ]
    }
}

fn siblings() -> Vec<Edit> {
    vec![
        ("of 1 byte", |_| b"5a".to_vec()),
        ("of 31 bytes", |_| b"5a".repeat(31)),
        ("of 33 bytes", |_| b"5a".repeat(33)),
        ("of 256 siblings", |_| b"5a".repeat(256 * 32)),
        ("of 257 siblings", |_| b"5a".repeat(257 * 32)),
        ("of 255 siblings and a byte", |_| b"5a".repeat(255 * 32 + 1)),
    ]
}
