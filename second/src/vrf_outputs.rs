//! The VRF outputs that the chip approved, which paper 01 calls the sheet (What a call is given).

use crate::refusal::Refusal;
use crate::suite::{VrfOutput, VRF_NH};

/// The length of a version in a record.
const VERSION: usize = 4;

/// The length of a record: a version and its output.
const RECORD: usize = VERSION + VRF_NH;

/// A list of records whose versions strictly rise.
#[derive(Debug)]
pub struct VrfOutputs<'a> {
    records: &'a [[u8; RECORD]],
}

/// The version of a record.
fn version(record: &[u8; RECORD]) -> u32 {
    let [a, b, c, d, ..] = *record;
    u32::from_be_bytes([a, b, c, d])
}

impl<'a> VrfOutputs<'a> {
    /// Reads whole records with strictly rising versions (paper 01, Sixteen numbers, 4).
    pub fn read(bytes: &'a [u8]) -> Result<Self, Refusal> {
        let (records, partial) = bytes.as_chunks();
        let rising = records.is_sorted_by(|a, b| version(a) < version(b));
        if partial.is_empty() && rising {
            Ok(VrfOutputs { records })
        } else {
            Err(Refusal::VrfOutputs)
        }
    }

    /// The output of a version, if it is listed.
    pub fn of(&self, wanted: u32) -> Option<VrfOutput> {
        let index = self.records.binary_search_by_key(&wanted, version).ok()?;
        self.records[index].last_chunk().copied()
    }
}

#[cfg(test)]
mod tests {
    use super::*;

    fn record(version: u32, output: u8) -> Vec<u8> {
        [&version.to_be_bytes()[..], &[output; VRF_NH]].concat()
    }

    fn reads(records: &[Vec<u8>]) -> bool {
        VrfOutputs::read(&records.concat()).is_ok()
    }

    #[test]
    fn found_by_version() {
        let bytes = [
            record(0, 1),
            record(3, 2),
            record(256, 3),
            record(u32::MAX, 4),
        ]
        .concat();
        let outputs = VrfOutputs::read(&bytes).unwrap();
        assert_eq!(outputs.of(0), Some([1; 32]));
        assert_eq!(outputs.of(3), Some([2; 32]));
        assert_eq!(outputs.of(256), Some([3; 32]));
        assert_eq!(outputs.of(u32::MAX), Some([4; 32]));
        assert_eq!(outputs.of(1), None);
        assert_eq!(outputs.of(u32::MAX - 1), None);
    }

    #[test]
    fn whole_and_rising() {
        assert!(reads(&[]));
        assert!(reads(&[record(7, 0)]));
        assert!(reads(&[record(1, 9), record(2, 9)]));
        assert!(!reads(&[record(1, 1), record(1, 2)]));
        assert!(!reads(&[record(2, 1), record(1, 2)]));
        assert!(!reads(&[record(1, 1), record(3, 1), record(2, 1)]));
        assert!(!reads(&[record(1, 1), vec![0]]));
        assert!(!reads(&[record(1, 1)[..35].to_vec()]));
        let error = VrfOutputs::read(&[0]).unwrap_err();
        assert_eq!(error, Refusal::VrfOutputs);
    }
}
