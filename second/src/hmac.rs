//! HMAC with SHA-256, from RFC 2104.

use crate::sha256::{sha256, Sha256, BLOCK};

/// The HMAC of a text under a key of any length (RFC 2104, section 2).
pub fn hmac(key: &[u8], text: &[u8]) -> [u8; 32] {
    let key = key_block(key);
    let mut inner = Sha256::new();
    inner.update(&key.map(|byte| byte ^ 0x36));
    inner.update(text);
    let mut outer = Sha256::new();
    outer.update(&key.map(|byte| byte ^ 0x5c));
    outer.update(&inner.finish());
    outer.finish()
}

/// Brings a key to the length of a block: a longer one is hashed, then zeros follow (section 2).
fn key_block(key: &[u8]) -> [u8; BLOCK] {
    let mut block = [0; BLOCK];
    if key.len() > BLOCK {
        block[..32].copy_from_slice(&sha256(key));
    } else {
        block[..key.len()].copy_from_slice(key);
    }
    block
}

#[cfg(test)]
mod tests {
    use super::*;

    // Compares as many bytes as the published value has: case 5 of RFC 4231 has only the first 16.
    fn check(key: &[u8], text: &[u8], published: &str) {
        let code: String = hmac(key, text)
            .iter()
            .map(|byte| format!("{byte:02x}"))
            .collect();
        assert_eq!(&code[..published.len()], published);
    }

    // RFC 4231, section 4, test cases 1 to 7.
    #[test]
    fn rfc_4231() {
        check(
            &[0x0b; 20],
            b"Hi There",
            "b0344c61d8db38535ca8afceaf0bf12b881dc200c9833da726e9376c2e32cff7",
        );
        check(
            b"Jefe",
            b"what do ya want for nothing?",
            "5bdcc146bf60754e6a042426089575c75a003f089d2739839dec58b964ec3843",
        );
        check(
            &[0xaa; 20],
            &[0xdd; 50],
            "773ea91e36800e46854db8ebd09181a72959098b3ef8c122d9635514ced565fe",
        );
        check(
            &(1..=25).collect::<Vec<u8>>(),
            &[0xcd; 50],
            "82558a389a443c0ea4cc819899f2083a85f0faa3e578f8077a2e3ff46729665b",
        );
        check(
            &[0x0c; 20],
            b"Test With Truncation",
            "a3b6167473100ee06e0c796c2955552b",
        );
        check(
            &[0xaa; 131],
            b"Test Using Larger Than Block-Size Key - Hash Key First",
            "60e431591ee0b67f0d8a26aacbf5b77f8e0bc6213728c5140546040f0ee37f54",
        );
        check(
            &[0xaa; 131],
            b"This is a test using a larger than block-size key and a larger than \
              block-size data. The key needs to be hashed before being used by the \
              HMAC algorithm.",
            "9b09ffa71b942fcb27635fbcd5b0e944bfdc63644f0713938a7f51535c3a35e2",
        );
    }

    // RFC 2104, section 2: only a key longer than a block is hashed, and zeros fill up the block.
    #[test]
    fn key_lengths() {
        let key: Vec<u8> = (1..=65).collect();
        let mut filled = key[..63].to_vec();
        filled.push(0);
        assert_eq!(hmac(&key[..63], b"text"), hmac(&filled, b"text"));
        assert_ne!(
            hmac(&key[..64], b"text"),
            hmac(&sha256(&key[..64]), b"text")
        );
        assert_eq!(hmac(&key, b"text"), hmac(&sha256(&key), b"text"));
    }
}
