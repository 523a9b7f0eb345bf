//! The prefix tree of one log entry (001, 3.3 and 10.9).

use crate::hex::{self, Digits};
use crate::sha256::sha256;
use crate::suite::{Hash, VrfOutput, NH, VRF_NH};

/// The value of a place where nothing is (001, 10.9).
pub const EMPTY: Hash = [0; NH];

/// The first byte of the string that a leaf hashes, and that of a parent (001, 10.9).
const LEAF: u8 = 0x01;
const PARENT: u8 = 0x02;

/// The value of a leaf (001, 10.9).
pub fn leaf_value(output: &VrfOutput, commitment: &Hash) -> Hash {
    let mut content = [LEAF; 1 + VRF_NH + NH];
    content[1..1 + VRF_NH].copy_from_slice(output);
    content[1 + VRF_NH..].copy_from_slice(commitment);
    sha256(&content)
}

/// The value of a parent (001, 10.9).
fn parent_value(left: &Hash, right: &Hash) -> Hash {
    let mut content = [PARENT; 1 + NH + NH];
    content[1..1 + NH].copy_from_slice(left);
    content[1 + NH..].copy_from_slice(right);
    sha256(&content)
}

/// Says whether the path of an output turns right at a depth, the root's being 0 (001, 3.3).
fn turns_right(output: &VrfOutput, depth: usize) -> bool {
    let byte = output.get(depth / 8).copied().unwrap_or(0);
    byte >> (7 - depth % 8) & 1 == 1
}

/// Says whether two outputs have the same path down to a depth.
pub fn share_path(one: &VrfOutput, other: &VrfOutput, depth: usize) -> bool {
    (0..depth).all(|above| turns_right(one, above) == turns_right(other, above))
}

/// The root of the tree that has a value at the end of an output's path, past these siblings,
/// which are listed from the root down (paper 01, Trees).
pub fn root_value(output: &VrfOutput, siblings: &[[Digits; NH]], value: Hash) -> Hash {
    let mut value = value;
    for (depth, sibling) in siblings.iter().enumerate().rev() {
        let sibling = hex::decode(sibling);
        value = if turns_right(output, depth) {
            parent_value(&sibling, &value)
        } else {
            parent_value(&value, &sibling)
        };
    }
    value
}

#[cfg(test)]
mod tests {
    use super::*;

    #[test]
    fn leaf_and_parent() {
        let leaf = sha256(&[&[1][..], &[5; 32], &[6; 32]].concat());
        assert_eq!(leaf_value(&[5; 32], &[6; 32]), leaf);
        let parent = sha256(&[&[2][..], &[5; 32], &[6; 32]].concat());
        assert_eq!(parent_value(&[5; 32], &[6; 32]), parent);
    }

    // The top bit of the first byte comes first and the low bit of the last byte last.
    #[test]
    fn bits() {
        let mut output = [0; 32];
        output[0] = 0b1010_0000;
        output[31] = 0b0000_0011;
        let ones: Vec<usize> = (0..256).filter(|&d| turns_right(&output, d)).collect();
        assert_eq!(ones, [0, 2, 254, 255]);
    }

    #[test]
    fn shared_paths() {
        let (zero, mut other) = ([0; 32], [0; 32]);
        assert!(share_path(&zero, &other, 255));
        other[1] = 0b0010_0000;
        assert!(share_path(&zero, &other, 0));
        assert!(share_path(&zero, &other, 10));
        assert!(!share_path(&zero, &other, 11));
        assert!(!share_path(&zero, &other, 255));
        other[1] = 0;
        other[31] = 1;
        assert!(share_path(&zero, &other, 255));
    }

    // A path of three steps, right, left, right: the last sibling listed is the lowest.
    #[test]
    fn path() {
        let mut output = [0; 32];
        output[0] = 0b1010_0000;
        let siblings = [[*b"0a"; 32], [*b"0b"; 32], [*b"0c"; 32]];
        let lowest = sha256(&[&[2][..], &[0x0c; 32], &[9; 32]].concat());
        let middle = sha256(&[&[2][..], &lowest, &[0x0b; 32]].concat());
        let root = sha256(&[&[2][..], &[0x0a; 32], &middle].concat());
        assert_eq!(root_value(&output, &siblings, [9; 32]), root);
        assert_eq!(root_value(&output, &[], [9; 32]), [9; 32]);
    }

    // Longer lists than a response may have do not matter either.
    #[test]
    fn beyond_the_last_bit() {
        let siblings = vec![[*b"00"; 32]; 300];
        let root = root_value(&[0xff; 32], &siblings, EMPTY);
        assert_ne!(root, EMPTY);
    }
}
