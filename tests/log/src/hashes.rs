//! The strings that are hashed (001 10.6, 10.8, 10.9).

use crate::model::Digest;
use second::hmac::hmac;
use second::sha256::sha256;

/// The value of an empty place in a prefix tree (001 10.9).
pub const EMPTY: Digest = [0; 32];

/// The key Kc of commitments (001 15.1).
const COMMITMENT_KEY: [u8; 16] = 0xd821f8790d97709796b4d7903357c3f5_u128.to_be_bytes();

/// HMAC of opening, label and value under the suite's Kc (001 10.6).
pub fn commitment(opening: &[u8], label: &[u8], value: &[u8]) -> Digest {
    let mut text = opening.to_vec();
    text.push(label.len() as u8);
    text.extend(label);
    text.extend((value.len() as u32).to_be_bytes());
    text.extend(value);
    hmac(&COMMITMENT_KEY, &text)
}

/// The value of a log leaf (001 10.8).
pub fn log_leaf(time: u64, prefix_root: &Digest) -> Digest {
    let mut text = [0; 40];
    text[..8].copy_from_slice(&time.to_be_bytes());
    text[8..].copy_from_slice(prefix_root);
    sha256(&text)
}

/// The value of a log parent; each child comes with whether it is a leaf (001 10.8).
pub fn log_parent(left: (bool, &Digest), right: (bool, &Digest)) -> Digest {
    let mut text = [0; 66];
    text[0] = u8::from(!left.0);
    text[1..33].copy_from_slice(left.1);
    text[33] = u8::from(!right.0);
    text[34..].copy_from_slice(right.1);
    sha256(&text)
}

/// The value of a prefix leaf (001 10.9).
pub fn prefix_leaf(output: &Digest, commitment: &Digest) -> Digest {
    marked(1, output, commitment)
}

/// The value of a prefix parent (001 10.9).
pub fn prefix_parent(left: &Digest, right: &Digest) -> Digest {
    marked(2, left, right)
}

/// The hash of a mark and two strings, the form of both kinds of prefix nodes (001 10.9).
fn marked(mark: u8, first: &Digest, second: &Digest) -> Digest {
    let mut text = [mark; 65];
    text[1..33].copy_from_slice(first);
    text[33..].copy_from_slice(second);
    sha256(&text)
}
