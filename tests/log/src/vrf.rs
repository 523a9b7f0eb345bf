//! VRF outputs as the log chooses them: the arithmetic is the chip's, so any 32-byte strings serve
//! (paper 01, What a call is given).

use crate::model::Digest;
use crate::random::Random;
use second::sha256::sha256;
use std::collections::BTreeMap;

/// How many bits tell the versions of a label apart under a common beginning.
const VERSION_BITS: usize = 32;

/// How the log assigns outputs to versions of labels.
#[derive(Clone, Debug)]
pub enum VrfRule {
    /// A hash of seed, label and version: shallow trees.
    Hashed { seed: u64 },
    /// The first bits, at most 224, are common to all; the 32 that follow tell a label's versions
    /// apart. Up to 223, versions of one label differ in the first 255 bits, so that no list of
    /// their siblings is too long.
    Shared { seed: u64, bits: usize },
    /// Outputs by label and version from a table, and by another rule where it has none.
    Table {
        outputs: BTreeMap<(Vec<u8>, u32), Digest>,
        otherwise: Box<VrfRule>,
    },
}

impl VrfRule {
    /// The output of a version of a label.
    pub fn output(&self, label: &[u8], version: u32) -> Digest {
        match self {
            VrfRule::Hashed { seed } => hashed(*seed, label, version),
            VrfRule::Shared { seed, bits } => {
                let common = sha256(&seed.to_be_bytes());
                let rest = hashed(*seed, label, version);
                let number = scattered(*seed, label, version);
                joined(&common, *bits, u64::from(number), VERSION_BITS, &rest)
            }
            VrfRule::Table { outputs, otherwise } => {
                match outputs.get(&(label.to_vec(), version)) {
                    Some(output) => *output,
                    None => otherwise.output(label, version),
                }
            }
        }
    }

    /// A table that gives the versions of a label these outputs, one for one, before another rule.
    pub fn table(
        label: &[u8],
        versions: &[u32],
        outputs: &[Digest],
        otherwise: VrfRule,
    ) -> VrfRule {
        let keys = versions.iter().map(|&version| (label.to_vec(), version));
        VrfRule::Table {
            outputs: keys.zip(outputs.iter().copied()).collect(),
            otherwise: Box::new(otherwise),
        }
    }
}

/// Outputs that agree with a common one in the first bits and then count up, in as few bits as
/// count them: 2^k of them make leaves of depth bits + k.
pub fn outputs_sharing(common: &Digest, bits: usize, count: usize) -> Vec<Digest> {
    let width = count.next_power_of_two().ilog2() as usize;
    (0..count as u64)
        .map(|number| joined(common, bits, number, width, common))
        .collect()
}

/// Outputs that leave the common one at bit 0, 1, 2 and so on: in one tree with the common one
/// they make leaves of depth 1, 2, 3 and so on.
pub fn outputs_leaving(common: &Digest, count: usize) -> Vec<Digest> {
    (0..count)
        .map(|place| {
            let mut output = *common;
            set_bit(&mut output, place, !bit(common, place));
            output
        })
        .collect()
}

/// The bit at a place, place 0 being the top bit of the first byte (paper 01, Trees).
pub fn bit(output: &Digest, place: usize) -> bool {
    output[place / 8] >> (7 - place % 8) & 1 == 1
}

/// Sets the bit at a place (paper 01, Trees).
fn set_bit(output: &mut Digest, place: usize, to: bool) {
    let mask = 1 << (7 - place % 8);
    if to {
        output[place / 8] |= mask;
    } else {
        output[place / 8] &= !mask;
    }
}

/// A hash of seed, label and version.
fn hashed(seed: u64, label: &[u8], version: u32) -> Digest {
    sha256(
        &[
            &[label.len() as u8],
            label,
            &version.to_be_bytes(),
            &seed.to_be_bytes(),
        ]
        .concat(),
    )
}

/// A number for each version of a label, another for each.
fn scattered(seed: u64, label: &[u8], version: u32) -> u32 {
    let of_label = Random::of(seed, label, 0).next() as u32;
    let product = (version ^ of_label).wrapping_mul(0x9e37_79b1);
    product ^ (product >> 16)
}

/// The first bits of one output, a number of a width after them, and the rest of another output.
fn joined(common: &Digest, bits: usize, number: u64, width: usize, rest: &Digest) -> Digest {
    let mut output = *rest;
    for place in 0..bits {
        set_bit(&mut output, place, bit(common, place));
    }
    for place in 0..width {
        set_bit(
            &mut output,
            bits + place,
            number >> (width - 1 - place) & 1 == 1,
        );
    }
    output
}
