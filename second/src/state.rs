//! What is retained between calls, and its text (paper 01, What a call is given).

use crate::hex;
use crate::ladder::Version;
use crate::limits;
use crate::lines::{self, Reader};
use crate::refusal::Refusal;
use crate::suite::Hash;

/// An entry of the monitoring map, which paper 01 calls a pair: a position in the log and a version
/// known to be there (000, 4.4).
#[derive(Clone, Copy, Debug, PartialEq, Eq)]
pub struct MapEntry {
    pub position: u64,
    pub version: Version,
}

/// A valid state: it is only made from a label, from a text or by an accepted call.
#[derive(Clone, Debug, PartialEq, Eq)]
pub struct State {
    /// The label that this state is about.
    pub(crate) label: Vec<u8>,
    /// The size of the last tree seen.
    pub(crate) size: u64,
    /// The timestamp of the last entry of that tree, 0 if it is empty.
    pub(crate) timestamp: u64,
    /// The values of that tree's full subtrees, left to right.
    pub(crate) full_subtrees: Vec<Hash>,
    /// The monitoring map by rising position, all within that tree.
    pub(crate) map: Vec<MapEntry>,
}

impl State {
    /// The state of a label of which nothing has been seen yet, unless the label is too long.
    pub fn new(label: &[u8]) -> Result<Self, Refusal> {
        Refusal::Length.unless(label.len() <= limits::LABEL)?;
        Ok(State {
            label: label.to_vec(),
            size: 0,
            timestamp: 0,
            full_subtrees: Vec::new(),
            map: Vec::new(),
        })
    }

    /// Reads the text of a state, which is refused by its length or else by what it holds (paper
    /// 01, Sixteen numbers, 1 and 3).
    pub fn read(text: &[u8]) -> Result<Self, Refusal> {
        Refusal::Length.unless(text.len() <= limits::STATE_TEXT)?;
        Self::lines(text).ok_or(Refusal::State)
    }

    /// The state that a call is given, none if its text is broken, which other refusals precede.
    pub fn given(text: &[u8]) -> Result<Option<Self>, Refusal> {
        match Self::read(text) {
            Ok(state) => Ok(Some(state)),
            Err(Refusal::State) => Ok(None),
            Err(refusal) => Err(refusal),
        }
    }

    /// Reads the lines of a state's text, which have to give a valid state.
    fn lines(text: &[u8]) -> Option<Self> {
        let mut reader = Reader::new(text);
        let mut state = size_line(&mut reader)?;
        while reader.skip(b"keep\t") {
            state.full_subtrees.push(hex::decode(reader.array()?));
            reader.end_of_line()?;
        }
        while reader.skip(b"pair\t") {
            state.map.push(map_entry(&mut reader)?);
        }
        (reader.is_at_end() && state.is_valid()).then_some(state)
    }

    /// Says whether the parts of a state fit together.
    fn is_valid(&self) -> bool {
        let positions_rise = self.map.is_sorted_by(|a, b| a.position < b.position);
        self.size <= limits::TREE_SIZE
            && (self.size > 0 || self.timestamp == 0)
            && self.full_subtrees.len() == self.size.count_ones() as usize
            && self.map.len() <= limits::MAP
            && positions_rise
            && self.map.last().is_none_or(|last| last.position < self.size)
    }

    /// The text of the state.
    pub fn text(&self) -> Vec<u8> {
        let mut text = b"size".to_vec();
        lines::push_number(&mut text, self.size);
        lines::push_number(&mut text, self.timestamp);
        lines::push_bytes(&mut text, &self.label);
        lines::push_end(&mut text);
        for value in &self.full_subtrees {
            text.extend_from_slice(b"keep");
            lines::push_bytes(&mut text, value);
            lines::push_end(&mut text);
        }
        for entry in &self.map {
            text.extend_from_slice(b"pair");
            lines::push_number(&mut text, entry.position);
            lines::push_number(&mut text, entry.version.number().into());
            lines::push_end(&mut text);
        }
        text
    }
}

/// Reads the first line: size, timestamp and label.
fn size_line(reader: &mut Reader) -> Option<State> {
    if !reader.skip(b"size\t") {
        return None;
    }
    let size = reader.number()?;
    reader.tab()?;
    let timestamp = reader.number()?;
    reader.tab()?;
    let label = hex::decode_all(reader.bytes(limits::LABEL)?);
    reader.end_of_line()?;
    Some(State {
        label,
        size,
        timestamp,
        full_subtrees: Vec::new(),
        map: Vec::new(),
    })
}

/// Reads a map entry: position and version.
fn map_entry(reader: &mut Reader) -> Option<MapEntry> {
    let position = reader.number()?;
    reader.tab()?;
    let version = Version::new(reader.version()?)?;
    reader.end_of_line()?;
    Some(MapEntry { position, version })
}

#[cfg(test)]
mod tests {
    use super::*;

    fn keep(byte: &str) -> String {
        format!("keep\t{}\n", byte.repeat(32))
    }

    fn valid(text: &str) -> bool {
        match State::read(text.as_bytes()) {
            Ok(state) => {
                assert_eq!(state.text(), text.as_bytes());
                true
            }
            Err(refusal) => {
                assert_eq!(refusal, Refusal::State);
                false
            }
        }
    }

    #[test]
    fn new_states() {
        let state = State::new(b"ab").unwrap();
        assert_eq!(state.text(), b"size\t0\t0\t6162\n");
        assert_eq!(State::new(b"").unwrap().text(), b"size\t0\t0\t-\n");
        assert!(State::new(&[1; 255]).is_ok());
        assert_eq!(State::new(&[1; 256]), Err(Refusal::Length));
    }

    #[test]
    fn fields() {
        let text = format!(
            "size\t6\t99\t0aff\n{}{}pair\t2\t7\npair\t5\t0\n",
            keep("01"),
            keep("02")
        );
        assert!(valid(&text));
        let state = State::read(text.as_bytes()).unwrap();
        assert_eq!(state.label, [0x0a, 0xff]);
        assert_eq!((state.size, state.timestamp), (6, 99));
        assert_eq!(state.full_subtrees, [[1; 32], [2; 32]]);
        let entry = |position, version| MapEntry {
            position,
            version: Version::new(version).unwrap(),
        };
        assert_eq!(state.map, [entry(2, 7), entry(5, 0)]);
    }

    #[test]
    fn empty_tree() {
        assert!(valid("size\t0\t0\t-\n"));
        assert!(!valid("size\t0\t1\t-\n"));
        assert!(!valid(&format!("size\t0\t0\t-\n{}", keep("00"))));
        assert!(!valid("size\t0\t0\t-\npair\t0\t0\n"));
    }

    #[test]
    fn labels() {
        assert!(valid(&format!("size\t0\t0\t{}\n", "ab".repeat(255))));
        assert!(!valid(&format!("size\t0\t0\t{}\n", "ab".repeat(256))));
        for label in ["", "a", "AB", "--", "ab ", "ab\t"] {
            assert!(!valid(&format!("size\t0\t0\t{label}\n")), "{label:?}");
        }
    }

    #[test]
    fn sizes_and_times() {
        let largest = 1u64 << 40;
        assert!(valid(&format!(
            "size\t{largest}\t{}\t-\n{}",
            u64::MAX,
            keep("00")
        )));
        assert!(!valid(&format!(
            "size\t{}\t5\t-\n{}{}",
            largest + 1,
            keep("00"),
            keep("01")
        )));
        let forty = keep("0a").repeat(40);
        assert!(valid(&format!("size\t{}\t0\t-\n{forty}", largest - 1)));
        for number in ["18446744073709551616", "01", "", "-1", "+1", "x"] {
            let one = keep("01");
            assert!(
                !valid(&format!("size\t{number}\t0\t-\n{one}")),
                "{number:?}"
            );
            assert!(
                !valid(&format!("size\t1\t{number}\t-\n{one}")),
                "{number:?}"
            );
        }
    }

    #[test]
    fn number_of_values() {
        let (one, two) = (keep("01"), keep("02"));
        assert!(valid(&format!("size\t3\t0\t-\n{one}{two}")));
        assert!(!valid(&format!("size\t3\t0\t-\n{one}")));
        assert!(!valid(&format!("size\t3\t0\t-\n{one}{two}{one}")));
        assert!(!valid("size\t3\t0\t-\n"));
        assert!(!valid(&format!(
            "size\t1\t0\t-\nkeep\t{}\n",
            "01".repeat(31)
        )));
        assert!(!valid(&format!(
            "size\t1\t0\t-\nkeep\t{}\n",
            "01".repeat(33)
        )));
        assert!(!valid("size\t1\t0\t-\nkeep\t-\n"));
    }

    #[test]
    fn pairs() {
        let state = |pairs: &str| format!("size\t64\t5\t-\n{}{pairs}", keep("33"));
        let many = |count| -> String { (0..count).map(|p| format!("pair\t{p}\t9\n")).collect() };
        assert!(valid(&state("")));
        assert!(valid(&state("pair\t0\t5\npair\t63\t0\n")));
        assert!(valid(&state("pair\t0\t4294967294\n")));
        assert!(!valid(&state("pair\t0\t4294967295\n")));
        assert!(!valid(&state("pair\t0\t4294967296\n")));
        assert!(!valid(&state("pair\t64\t0\n")));
        assert!(!valid(&state("pair\t18446744073709551616\t0\n")));
        assert!(!valid(&state("pair\t1\t0\npair\t1\t0\n")));
        assert!(!valid(&state("pair\t2\t0\npair\t1\t0\n")));
        assert!(valid(&state(&many(48))));
        assert!(!valid(&state(&many(49))));
    }

    #[test]
    fn form() {
        let one = keep("01");
        for text in [
            "",
            "\n",
            "size\t0\t0\t-",
            "size\t0\t0\n",
            "size\t0\t0\t-\n\n",
            "size\t0\t0\t-\r\n",
            "size\t0\t0\t-\t\n",
            "size 0 0 -\n",
            "Size\t0\t0\t-\n",
            "size\t0\t0\t-\nend\n",
            "size\t0\t0\t-\nsize\t0\t0\t-\n",
            " size\t0\t0\t-\n",
        ] {
            assert!(!valid(text), "{text:?}");
        }
        assert!(valid(&format!("size\t1\t0\t-\n{one}pair\t0\t0\n")));
        assert!(!valid(&format!("size\t1\t0\t-\npair\t0\t0\n{one}")));
        assert!(!valid(&format!("{one}size\t1\t0\t-\n")));
    }

    #[test]
    fn too_long() {
        let valid_start = b"size\t0\t0\t-\n".to_vec();
        let filled = |length: usize| {
            let mut text = valid_start.clone();
            text.resize(length, b'\n');
            State::read(&text)
        };
        assert_eq!(filled(8192), Err(Refusal::State));
        assert_eq!(filled(8193), Err(Refusal::Length));
    }

    // The longest text of all stays well within the limit.
    #[test]
    fn longest() {
        let size = limits::TREE_SIZE - 1;
        let mut state = State::new(&[0xff; 255]).unwrap();
        state.size = size;
        state.timestamp = u64::MAX;
        state.full_subtrees = vec![[0xff; 32]; 40];
        state.map = (size - 48..size)
            .map(|position| MapEntry {
                position,
                version: Version::GREATEST,
            })
            .collect();
        let text = state.text();
        assert!(text.len() <= limits::STATE_TEXT);
        assert_eq!(State::read(&text), Ok(state));
    }
}
