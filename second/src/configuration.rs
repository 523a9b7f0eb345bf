//! The log's Configuration (001, 10.2), which paper 01 calls settings.

use crate::refusal::Refusal;
use crate::suite;

/// DeploymentMode.contactMonitoring.
const CONTACT_MONITORING: u8 = 1;

/// What the checks need of a configuration.
#[derive(Clone, Copy, Debug, PartialEq, Eq)]
pub struct Configuration {
    /// How many milliseconds the last entry may be ahead of the clock.
    pub max_ahead: u64,
    /// How many milliseconds the last entry may be behind the clock.
    pub max_behind: u64,
}

impl Configuration {
    /// Reads an encoded configuration of this suite in mode 1, which has no leaf_public_key.
    pub fn read(bytes: &[u8]) -> Result<Self, Refusal> {
        Self::fields(bytes).ok_or(Refusal::Configuration)
    }

    /// Reads the fields in their order (001, 10.2), or nothing if they don't fill the bytes.
    fn fields(bytes: &[u8]) -> Option<Self> {
        let (ciphersuite, bytes) = number16(bytes)?;
        let (&mode, bytes) = bytes.split_first()?;
        if ciphersuite != suite::NUMBER || mode != CONTACT_MONITORING {
            return None;
        }
        let bytes = after_opaque16(bytes)?; // signature_public_key
        let bytes = after_opaque16(bytes)?; // vrf_public_key
        let (max_ahead, bytes) = number64(bytes)?;
        let (max_behind, bytes) = number64(bytes)?;
        let (_reasonable_monitoring_window, bytes) = number64(bytes)?;
        after_optional64(bytes)? // maximum_lifetime
            .is_empty()
            .then_some(Configuration {
                max_ahead,
                max_behind,
            })
    }
}

/// Splits off a uint16.
fn number16(bytes: &[u8]) -> Option<(u16, &[u8])> {
    let (number, rest) = bytes.split_first_chunk()?;
    Some((u16::from_be_bytes(*number), rest))
}

/// Splits off a uint64.
fn number64(bytes: &[u8]) -> Option<(u64, &[u8])> {
    let (number, rest) = bytes.split_first_chunk()?;
    Some((u64::from_be_bytes(*number), rest))
}

/// What follows an opaque string with a length of two bytes.
fn after_opaque16(bytes: &[u8]) -> Option<&[u8]> {
    let (length, rest) = number16(bytes)?;
    rest.get(usize::from(length)..)
}

/// What follows an optional uint64, whose first byte says whether the number is there.
fn after_optional64(bytes: &[u8]) -> Option<&[u8]> {
    match bytes.split_first()? {
        (0, rest) => Some(rest),
        (1, rest) => Some(number64(rest)?.1),
        _ => None,
    }
}

#[cfg(test)]
mod tests {
    use super::*;

    const SIGNATURE_KEY: [u8; 5] = [0, 3, 0xaa, 0xbb, 0xcc];
    const VRF_KEY: [u8; 4] = [0, 2, 0xdd, 0xee];
    const AHEAD: [u8; 8] = [0, 0, 0, 0, 0, 0, 1, 2];
    const BEHIND: [u8; 8] = [0, 0, 0, 0, 0, 0, 3, 4];
    const WINDOW: [u8; 8] = [9; 8];

    fn encoded(start: &[u8], lifetime: &[u8]) -> Vec<u8> {
        [
            start,
            &SIGNATURE_KEY,
            &VRF_KEY,
            &AHEAD,
            &BEHIND,
            &WINDOW,
            lifetime,
        ]
        .concat()
    }

    fn reads(bytes: &[u8]) -> bool {
        Configuration::read(bytes).is_ok()
    }

    #[test]
    fn fields() {
        let read = Configuration::read(&encoded(&[0, 1, 1], &[0]));
        let expected = Configuration {
            max_ahead: 0x102,
            max_behind: 0x304,
        };
        assert_eq!(read, Ok(expected));
        let with_lifetime = encoded(&[0, 1, 1], &[1, 0, 0, 0, 0, 0, 0, 0, 1]);
        assert_eq!(Configuration::read(&with_lifetime), Ok(expected));
    }

    #[test]
    fn suite_and_mode() {
        for suite in [[0, 0], [0, 2], [1, 0], [1, 1], [0xf0, 0x01]] {
            assert!(!reads(&encoded(&[suite[0], suite[1], 1], &[0])));
        }
        for mode in [0, 2, 3, 255] {
            assert!(!reads(&encoded(&[0, 1, mode], &[0])));
        }
        assert_eq!(Configuration::read(&[]), Err(Refusal::Configuration));
    }

    // Another presence byte, bytes missing anywhere and bytes left over are all refused.
    #[test]
    fn exact() {
        assert!(!reads(&encoded(&[0, 1, 1], &[2])));
        assert!(!reads(&encoded(&[0, 1, 1], &[0, 0])));
        assert!(!reads(&encoded(&[0, 1, 1], &[255, 0, 0, 0, 0, 0, 0, 0, 0])));
        for lifetime in [&[0][..], &[1, 1, 2, 3, 4, 5, 6, 7, 8]] {
            let whole = encoded(&[0, 1, 1], lifetime);
            assert!(reads(&whole));
            for length in 0..whole.len() {
                assert!(!reads(&whole[..length]), "{length}");
            }
            assert!(!reads(&[whole, vec![0]].concat()));
        }
    }

    // Keys may be empty; an empty leaf_public_key is two bytes too many.
    #[test]
    fn keys() {
        let numbers = [AHEAD, BEHIND, WINDOW].concat();
        let smallest = [&[0, 1, 1, 0, 0, 0, 0][..], &numbers, &[0]].concat();
        assert_eq!(smallest.len(), 32);
        assert!(reads(&smallest));
        let leaf_key = [&[0, 1, 1, 0, 0, 0, 0, 0, 0][..], &numbers, &[0]].concat();
        assert!(!reads(&leaf_key));
        let beyond = [&[0, 1, 1, 0xff, 0xff, 0, 0][..], &numbers, &[0]].concat();
        assert!(!reads(&beyond));
    }
}
