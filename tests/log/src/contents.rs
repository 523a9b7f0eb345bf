//! What a version of a label holds (001 10.5 and 10.6), and a rule to make such contents up.

use crate::hashes;
use crate::model::Digest;
use crate::random::Random;

/// The length of an opening in bytes, Nc (001 15.1).
pub const OPENING_LENGTH: usize = 16;

/// The value of one version and the opening of its commitment (001 10.6).
#[derive(Clone, Debug, PartialEq, Eq)]
pub struct Contents {
    pub value: Vec<u8>,
    pub opening: [u8; OPENING_LENGTH],
}

impl Contents {
    /// The commitment to the contents under a label (001 10.6).
    pub fn commitment(&self, label: &[u8]) -> Digest {
        hashes::commitment(&self.opening, label, &self.value)
    }
}

/// A version of a label that an entry adds to the prefix tree (001 3.3).
#[derive(Clone, Debug, PartialEq, Eq)]
pub struct Addition {
    pub label: Vec<u8>,
    pub version: u32,
    pub contents: Contents,
}

/// Contents made up from label and version, values between two lengths (both included).
#[derive(Clone, Copy, Debug, PartialEq, Eq)]
pub struct ContentRule {
    pub seed: u64,
    pub shortest: usize,
    pub longest: usize,
}

impl ContentRule {
    /// The contents of a version; the length of the value varies between the two lengths.
    pub fn contents(&self, label: &[u8], version: u32) -> Contents {
        let mut random = Random::of(self.seed, label, version);
        let length = random.between(self.shortest as u64, self.longest as u64);
        Contents {
            value: random.bytes(length as usize),
            opening: std::array::from_fn(|_| random.next() as u8),
        }
    }

    /// The addition of one version.
    pub fn addition(&self, label: &[u8], version: u32) -> Addition {
        Addition {
            label: label.to_vec(),
            version,
            contents: self.contents(label, version),
        }
    }

    /// The additions of a list of versions.
    pub fn additions(&self, label: &[u8], versions: &[u32]) -> Vec<Addition> {
        versions
            .iter()
            .map(|&version| self.addition(label, version))
            .collect()
    }
}
