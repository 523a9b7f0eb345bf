//! Commitments to the value of a label at one version (001, 10.6).

use crate::hmac::hmac;
use crate::suite::{Hash, KC, NC};

/// The commitment that an opening, a label of up to 255 bytes and a value give (001, 10.6).
pub fn commitment(opening: &[u8; NC], label: &[u8], value: &[u8]) -> Hash {
    hmac(&KC, &commitment_value(opening, label, value))
}

/// CommitmentValue (001, 10.6), whose UpdateValue has an empty prefix in mode 1 (001, 10.5).
fn commitment_value(opening: &[u8; NC], label: &[u8], value: &[u8]) -> Vec<u8> {
    let mut bytes = Vec::with_capacity(NC + 1 + label.len() + 4 + value.len());
    bytes.extend_from_slice(opening);
    bytes.push(label.len() as u8);
    bytes.extend_from_slice(label);
    bytes.extend_from_slice(&(value.len() as u32).to_be_bytes());
    bytes.extend_from_slice(value);
    bytes
}

#[cfg(test)]
mod tests {
    use super::*;
    use crate::sha256::sha256;

    #[test]
    fn encoding() {
        let bytes = commitment_value(&[7; 16], b"ab", b"xyz");
        assert_eq!(
            bytes,
            [&[7; 16][..], &[2], b"ab", &[0, 0, 0, 3], b"xyz"].concat()
        );
        let empty = commitment_value(&[0; 16], b"", b"");
        assert_eq!(empty, [0; 21]);
        let long = commitment_value(&[1; 16], &[2; 255], &[3; 1024]);
        assert_eq!(long[16], 255);
        assert_eq!(long[16 + 1 + 255..][..4], [0, 0, 4, 0]);
    }

    // RFC 2104 written out: the key is filled up with zeros to a block of 64 bytes.
    #[test]
    fn keyed() {
        let pad = |mask: u8| {
            let mut block = [mask; 64];
            block
                .iter_mut()
                .zip(KC)
                .for_each(|(byte, key)| *byte ^= key);
            block
        };
        let text = [&[7; 16][..], &[2], b"ab", &[0, 0, 0, 3], b"xyz"].concat();
        let inner = sha256(&[&pad(0x36)[..], &text].concat());
        let outer = sha256(&[&pad(0x5c)[..], &inner].concat());
        assert_eq!(commitment(&[7; 16], b"ab", b"xyz"), outer);
    }
}
