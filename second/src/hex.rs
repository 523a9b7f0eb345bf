//! Hex fields, kept as the digits that stand in the text (paper 01, Response lines).

/// The two lower-case hex digits of one byte.
pub type Digits = [u8; 2];

/// How many digits are checked at a time: those of one hash value.
const STRIDE: usize = 64;

/// Says whether a byte is one of the digits 0 to 9 and a to f.
fn is_digit(byte: u8) -> bool {
    byte.is_ascii_digit() | matches!(byte, b'a'..=b'f')
}

/// How many hex digits the text begins with.
pub fn leading_digits(text: &[u8]) -> usize {
    let (strides, _) = text.as_chunks::<STRIDE>();
    let whole = STRIDE
        * strides
            .iter()
            .take_while(|stride| stride.iter().fold(true, |all, &byte| all & is_digit(byte)))
            .count();
    let rest = text[whole..].iter().take_while(|&&byte| is_digit(byte));
    whole + rest.count()
}

/// The value of one hex digit: letters have bit 6 set and stand for nine more than their low bits.
fn nibble(digit: u8) -> u8 {
    (digit & 0x0f) + 9 * (digit >> 6 & 1)
}

/// The byte that two hex digits write.
pub fn byte([high, low]: Digits) -> u8 {
    nibble(high) << 4 | nibble(low)
}

/// The bytes that a field of known length writes.
pub fn decode<const N: usize>(digits: &[Digits; N]) -> [u8; N] {
    digits.map(byte)
}

/// The bytes that a field of any length writes.
pub fn decode_all(digits: &[Digits]) -> Vec<u8> {
    digits.iter().map(|&pair| byte(pair)).collect()
}

/// Says whether a field writes exactly these bytes.
pub fn writes(digits: &[Digits], bytes: &[u8]) -> bool {
    digits.len() == bytes.len() && digits.iter().zip(bytes).all(|(&pair, &b)| byte(pair) == b)
}

#[cfg(test)]
mod tests {
    use super::*;

    // Every byte value at once: only the sixteen digits count, each with its value.
    #[test]
    fn digits() {
        let digits = b"0123456789abcdef";
        for candidate in 0..=255 {
            assert_eq!(is_digit(candidate), digits.contains(&candidate));
        }
        for (value, &digit) in digits.iter().enumerate() {
            assert_eq!(usize::from(nibble(digit)), value);
        }
    }

    // The count must not depend on where the digits end within a stride.
    #[test]
    fn leading() {
        for length in 0..200 {
            let mut text = vec![b'7'; length];
            assert_eq!(leading_digits(&text), length);
            text.extend_from_slice(b"\t77");
            assert_eq!(leading_digits(&text), length);
            text.extend_from_slice(&[b'a'; 100]);
            assert_eq!(leading_digits(&text), length);
        }
        assert_eq!(leading_digits(b"abF"), 2);
        assert_eq!(leading_digits(b"-"), 0);
    }

    #[test]
    fn decoding() {
        assert_eq!(
            decode(&[*b"00", *b"7f", *b"a0", *b"ff"]),
            [0, 127, 160, 255]
        );
        assert_eq!(decode_all(&[*b"c3", *b"f5"]), [0xc3, 0xf5]);
        assert!(writes(&[*b"c3", *b"f5"], &[0xc3, 0xf5]));
        assert!(writes(&[], &[]));
        assert!(!writes(&[*b"c3"], &[0xc3, 0xf5]));
        assert!(!writes(&[*b"c3", *b"f4"], &[0xc3, 0xf5]));
    }
}
