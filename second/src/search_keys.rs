//! The search keys of a response's steps, and lookups tried with them (paper 01, Trees).

use crate::hex;
use crate::prefix_tree::{leaf_value, root_value, share_path, EMPTY};
use crate::refusal::Refusal;
use crate::response::{Lookup, LookupResult, Step};
use crate::suite::{Hash, VrfOutput};
use crate::vrf_outputs::VrfOutputs;

/// A version with its VRF output and, where its commitment is known, the value of its leaf.
struct SearchKey {
    version: u32,
    output: VrfOutput,
    leaf: Option<Hash>,
}

/// The search keys of all steps, by rising version.
pub struct SearchKeys {
    keys: Vec<SearchKey>,
}

impl SearchKeys {
    /// The keys of the steps and the target's computed commitment, refused if a step has no VRF
    /// output (paper 01, Sixteen numbers, 10).
    pub fn of(
        steps: &[Step],
        outputs: &VrfOutputs,
        target: Option<(u32, Hash)>,
    ) -> Result<Self, Refusal> {
        let mut keys = Vec::with_capacity(steps.len());
        for step in steps {
            let output = outputs.of(step.version).ok_or(Refusal::MissingOutput)?;
            let computed = target.filter(|&(version, _)| version == step.version);
            let commitment = match step.commitment {
                Some(given) => Some(hex::decode(given)),
                None => computed.map(|(_, commitment)| commitment),
            };
            keys.push(SearchKey {
                version: step.version,
                output,
                leaf: commitment.map(|commitment| leaf_value(&output, &commitment)),
            });
        }
        keys.sort_unstable_by_key(|key| key.version);
        Ok(SearchKeys { keys })
    }

    /// The key of a version, if it is a step's.
    fn of_version(&self, version: u32) -> Option<&SearchKey> {
        let index = self.keys.binary_search_by_key(&version, |key| key.version);
        index.ok().map(|index| &self.keys[index])
    }

    /// Says whether a lookup leads to a prefix root, an `nl` having the leaf of another output that
    /// the path leads to (paper 01, Sixteen numbers, 12).
    pub fn confirm(&self, lookup: &Lookup, prefix_root: &Hash) -> bool {
        let Some(key) = self.of_version(lookup.version) else {
            return false;
        };
        let value = match lookup.result {
            LookupResult::Inclusion => match key.leaf {
                Some(leaf) => leaf,
                // Only versions above a search's target have no commitment, and 13 refuses these.
                None => return true,
            },
            LookupResult::NonInclusionParent => EMPTY,
            LookupResult::NonInclusionLeaf { output, commitment } => {
                let other = hex::decode(output);
                if other == key.output || !share_path(&other, &key.output, lookup.siblings.len()) {
                    return false;
                }
                leaf_value(&other, &hex::decode(commitment))
            }
        };
        root_value(&key.output, lookup.siblings, value) == *prefix_root
    }
}

#[cfg(test)]
mod tests {
    use super::*;
    use crate::sha256::sha256;

    // Outputs of all zeros for version 0 and beginning with a one bit for version 1.
    fn sheet() -> Vec<u8> {
        let mut one = [0; 32];
        one[0] = 0x80;
        [&[0, 0, 0, 0][..], &[0; 32], &[0, 0, 0, 1], &one].concat()
    }

    fn lookup<'a>(
        version: u32,
        result: LookupResult<'a>,
        siblings: &'a [[hex::Digits; 32]],
    ) -> Lookup<'a> {
        Lookup {
            version,
            result,
            siblings,
        }
    }

    // The keys of a search for version 0, whose commitment is all 0xcc.
    fn keys(sheet: &[u8]) -> SearchKeys {
        let step = |version| Step {
            version,
            commitment: None,
        };
        let outputs = VrfOutputs::read(sheet).unwrap();
        SearchKeys::of(&[step(1), step(0)], &outputs, Some((0, [0xcc; 32]))).unwrap()
    }

    #[test]
    fn missing_output() {
        let sheet = sheet();
        let outputs = VrfOutputs::read(&sheet).unwrap();
        let step = Step {
            version: 2,
            commitment: None,
        };
        let refused = SearchKeys::of(&[step], &outputs, None).err();
        assert_eq!(refused, Some(Refusal::MissingOutput));
    }

    #[test]
    fn inclusion() {
        let (sheet, siblings) = (sheet(), [[*b"0a"; 32]]);
        let keys = keys(&sheet);
        let leaf = sha256(&[&[1][..], &[0; 32], &[0xcc; 32]].concat());
        let root = sha256(&[&[2][..], &leaf, &[0x0a; 32]].concat());
        assert!(keys.confirm(&lookup(0, LookupResult::Inclusion, &[]), &leaf));
        assert!(keys.confirm(&lookup(0, LookupResult::Inclusion, &siblings), &root));
        assert!(!keys.confirm(&lookup(0, LookupResult::Inclusion, &siblings), &leaf));
        assert!(!keys.confirm(&lookup(0, LookupResult::Inclusion, &[]), &root));
        // Version 1 has no commitment: whatever is said of it is left to the ladder's rule.
        assert!(keys.confirm(&lookup(1, LookupResult::Inclusion, &siblings), &leaf));
        assert!(!keys.confirm(&lookup(2, LookupResult::Inclusion, &[]), &leaf));
    }

    #[test]
    fn empty_place() {
        let (sheet, siblings) = (sheet(), [[*b"0a"; 32]]);
        let keys = keys(&sheet);
        let at_left = sha256(&[&[2][..], &[0; 32], &[0x0a; 32]].concat());
        let at_right = sha256(&[&[2][..], &[0x0a; 32], &[0; 32]].concat());
        let absent =
            |version, siblings| lookup(version, LookupResult::NonInclusionParent, siblings);
        assert!(keys.confirm(&absent(0, &[]), &[0; 32]));
        assert!(keys.confirm(&absent(0, &siblings), &at_left));
        assert!(!keys.confirm(&absent(0, &siblings), &at_right));
        assert!(keys.confirm(&absent(1, &siblings), &at_right));
        assert!(!keys.confirm(&absent(1, &siblings), &at_left));
    }

    #[test]
    fn other_leaf() {
        let (sheet, siblings) = (sheet(), [[*b"0a"; 32]]);
        let keys = keys(&sheet);
        let (near_output, own_output) = ([*b"40"; 32], [*b"00"; 32]);
        let commitment = &[*b"dd"; 32];
        let other = |version, output, siblings| {
            let result = LookupResult::NonInclusionLeaf { output, commitment };
            lookup(version, result, siblings)
        };
        // Another output that begins with a zero bit.
        let near = sha256(&[&[1][..], &[0x40; 32], &[0xdd; 32]].concat());
        let root = sha256(&[&[2][..], &near, &[0x0a; 32]].concat());
        assert!(keys.confirm(&other(0, &near_output, &[]), &near));
        assert!(keys.confirm(&other(0, &near_output, &siblings), &root));
        // It is off the path of version 1, but not at depth 0.
        let mirrored = sha256(&[&[2][..], &[0x0a; 32], &near].concat());
        assert!(!keys.confirm(&other(1, &near_output, &siblings), &mirrored));
        assert!(!keys.confirm(&other(1, &near_output, &siblings), &root));
        assert!(keys.confirm(&other(1, &near_output, &[]), &near));
        // The searched output itself is no other leaf, whatever its commitment.
        let own = sha256(&[&[1][..], &[0; 32], &[0xdd; 32]].concat());
        assert!(!keys.confirm(&other(0, &own_output, &[]), &own));
    }
}
