//! What the log signs (001, 10.2).

use crate::suite::Hash;

/// TreeHeadTBS (001, 10.2): the configuration as it was given, the tree size and the root.
pub fn tree_head_tbs(configuration: &[u8], tree_size: u64, root: &Hash) -> Vec<u8> {
    let size = tree_size.to_be_bytes();
    [configuration, &size, root].concat()
}

#[cfg(test)]
mod tests {
    use super::*;

    #[test]
    fn encoding() {
        let text = tree_head_tbs(&[1, 2, 3], 0x0102, &[9; 32]);
        let expected = [&[1, 2, 3, 0, 0, 0, 0, 0, 0, 1, 2][..], &[9; 32]].concat();
        assert_eq!(text, expected);
    }
}
