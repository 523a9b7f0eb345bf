//! The form that responses, state texts and requests share, with tabs between fields and 0x0A after
//! each line (paper 01, Response lines).

use crate::hex::{self, Digits};

const TAB: u8 = b'\t';
const NEWLINE: u8 = b'\n';

/// What stands for a byte string of no bytes.
const EMPTY: &[u8] = b"-";

/// A text together with the place in it: all that has not been read yet.
pub struct Reader<'a> {
    rest: &'a [u8],
}

impl<'a> Reader<'a> {
    /// A reader at the beginning of a text.
    pub fn new(text: &'a [u8]) -> Self {
        Reader { rest: text }
    }

    /// Says whether nothing is left.
    pub fn is_at_end(&self) -> bool {
        self.rest.is_empty()
    }

    /// Reads the given bytes if they come next, and says whether they did.
    pub fn skip(&mut self, bytes: &[u8]) -> bool {
        let rest = self.rest.strip_prefix(bytes);
        self.rest = rest.unwrap_or(self.rest);
        rest.is_some()
    }

    /// Reads the tab between two fields.
    pub fn tab(&mut self) -> Option<()> {
        self.skip(&[TAB]).then_some(())
    }

    /// Reads the end of a line.
    pub fn end_of_line(&mut self) -> Option<()> {
        self.skip(&[NEWLINE]).then_some(())
    }

    /// Reads a decimal number without leading zeros, up to 2^64 - 1.
    pub fn number(&mut self) -> Option<u64> {
        let length = self.rest.iter().take_while(|byte| byte.is_ascii_digit());
        let (digits, rest) = self.rest.split_at(length.count());
        if digits.is_empty() || (digits[0] == b'0' && digits.len() > 1) {
            return None;
        }
        self.rest = rest;
        digits.iter().try_fold(0u64, |number, digit| {
            number.checked_mul(10)?.checked_add(u64::from(digit - b'0'))
        })
    }

    /// Reads a version, a number up to 2^32 - 1.
    pub fn version(&mut self) -> Option<u32> {
        self.number()?.try_into().ok()
    }

    /// Reads a byte string in hex of at most so many bytes.
    pub fn bytes(&mut self, most: usize) -> Option<&'a [Digits]> {
        if self.skip(EMPTY) {
            return Some(&[]);
        }
        let (digits, rest) = self.rest.split_at(hex::leading_digits(self.rest));
        let (bytes, odd) = digits.as_chunks();
        if bytes.is_empty() || !odd.is_empty() || bytes.len() > most {
            return None;
        }
        self.rest = rest;
        Some(bytes)
    }

    /// Reads a byte string in hex of exactly N bytes.
    pub fn array<const N: usize>(&mut self) -> Option<&'a [Digits; N]> {
        self.bytes(N)?.try_into().ok()
    }

    /// Reads a list of byte strings of N bytes each, at most so many, their hex in one field.
    pub fn arrays<const N: usize>(&mut self, most: usize) -> Option<&'a [[Digits; N]]> {
        let (arrays, partial) = self.bytes(most * N)?.as_chunks();
        partial.is_empty().then_some(arrays)
    }
}

/// Appends a number, preceded by the tab that parts it from the field before.
pub fn push_number(line: &mut Vec<u8>, number: u64) {
    line.push(TAB);
    line.extend_from_slice(number.to_string().as_bytes());
}

/// Appends a byte string in hex, preceded by the tab that parts it from the field before.
pub fn push_bytes(line: &mut Vec<u8>, bytes: &[u8]) {
    const DIGITS: &[u8; 16] = b"0123456789abcdef";
    line.push(TAB);
    if bytes.is_empty() {
        line.extend_from_slice(EMPTY);
    }
    for byte in bytes {
        line.push(DIGITS[usize::from(byte >> 4)]);
        line.push(DIGITS[usize::from(byte & 0x0f)]);
    }
}

/// Appends an absent field, preceded by the tab that parts it from the field before.
pub fn push_absent(line: &mut Vec<u8>) {
    push_bytes(line, &[]);
}

/// Ends a line.
pub fn push_end(line: &mut Vec<u8>) {
    line.push(NEWLINE);
}

#[cfg(test)]
mod tests {
    use super::*;

    fn number(text: &[u8]) -> Option<u64> {
        let mut reader = Reader::new(text);
        reader.number().filter(|_| reader.is_at_end())
    }

    fn version(text: &[u8]) -> Option<u32> {
        let mut reader = Reader::new(text);
        reader.version().filter(|_| reader.is_at_end())
    }

    fn bytes(text: &[u8], most: usize) -> Option<Vec<u8>> {
        let mut reader = Reader::new(text);
        let bytes = reader.bytes(most).filter(|_| reader.is_at_end());
        bytes.map(hex::decode_all)
    }

    #[test]
    fn numbers() {
        assert_eq!(number(b"0"), Some(0));
        assert_eq!(number(b"7"), Some(7));
        assert_eq!(number(b"10"), Some(10));
        assert_eq!(number(b"18446744073709551615"), Some(u64::MAX));
        assert_eq!(number(b"18446744073709551616"), None);
        assert_eq!(number(b"99999999999999999999"), None);
        assert_eq!(number(&[b'1'; 1000]), None);
        for broken in [
            "", "00", "01", "+1", "-1", "-", " 1", "1 ", "1a", "0x1", "1\t", "1\r",
        ] {
            assert_eq!(number(broken.as_bytes()), None, "{broken:?}");
        }
    }

    #[test]
    fn versions() {
        assert_eq!(version(b"4294967294"), Some(u32::MAX - 1));
        assert_eq!(version(b"4294967295"), Some(u32::MAX));
        assert_eq!(version(b"4294967296"), None);
        assert_eq!(version(b"00"), None);
    }

    #[test]
    fn byte_strings() {
        assert_eq!(bytes(b"-", 0), Some(vec![]));
        assert_eq!(bytes(b"00ff", 2), Some(vec![0, 255]));
        assert_eq!(bytes(b"00ff", 1), None);
        for broken in [
            "", "0", "00f", "0F", "FF", "--", "-00", "00-", " 00", "00 ", "0g", "00\r",
        ] {
            assert_eq!(bytes(broken.as_bytes(), 9), None, "{broken:?}");
        }
    }

    #[test]
    fn arrays() {
        let one = "ab".repeat(32);
        let lengths = |text: &str| {
            let mut reader = Reader::new(text.as_bytes());
            reader.arrays::<32>(2).map(<[_]>::len)
        };
        assert_eq!(lengths("-"), Some(0));
        assert_eq!(lengths(&one), Some(1));
        assert_eq!(lengths(&one.repeat(2)), Some(2));
        assert_eq!(lengths(&one.repeat(3)), None);
        assert_eq!(lengths(&one[2..]), None);
        assert_eq!(lengths(&(one + "00")), None);

        let fixed = |text: &[u8]| Reader::new(text).array::<2>().map(hex::decode);
        assert_eq!(fixed(b"0a0b\t"), Some([10, 11]));
        assert_eq!(fixed(b"0a"), None);
        assert_eq!(fixed(b"0a0b0c"), None);
        assert_eq!(fixed(b"-"), None);
    }

    // Nothing but one tab parts fields and nothing but one 0x0A ends a line.
    #[test]
    fn parts() {
        let mut reader = Reader::new(b"step\t\n\r");
        assert!(!reader.skip(b"stop"));
        assert!(reader.skip(b"step"));
        assert!(reader.end_of_line().is_none());
        assert!(reader.tab().is_some());
        assert!(reader.tab().is_none());
        assert!(reader.end_of_line().is_some());
        assert!(!reader.is_at_end());
        assert!(reader.end_of_line().is_none());
    }

    #[test]
    fn writing() {
        let mut line = b"x".to_vec();
        push_number(&mut line, u64::MAX);
        push_bytes(&mut line, &[0x0a, 0xf0]);
        push_bytes(&mut line, &[]);
        push_absent(&mut line);
        push_end(&mut line);
        assert_eq!(line, b"x\t18446744073709551615\t0af0\t-\t-\n");
    }
}
