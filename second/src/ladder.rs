//! Binary ladders (001, 5 and appendix B; paper 01, Ladder, search, monitoring).

/// A version that a label may have, which 2^32 - 1 is not (paper 01, What a call is given).
#[derive(Clone, Copy, Debug, PartialEq, Eq, PartialOrd, Ord)]
pub struct Version(u32);

impl Version {
    /// The greatest version that a label may have.
    pub const GREATEST: Version = Version(u32::MAX - 1);

    /// The version of a number, if it is not beyond the greatest.
    pub fn new(number: u32) -> Option<Self> {
        (number <= Self::GREATEST.0).then_some(Version(number))
    }

    /// The version as a number.
    pub fn number(self) -> u32 {
        self.0
    }
}

/// How many versions the longest ladder has, that of the greatest version.
const LONGEST: usize = 64;

/// The versions looked up to show that the target is the greatest, in their order (001, appendix B,
/// base_binary_ladder).
pub fn binary_ladder(target: Version) -> Vec<u32> {
    let mut versions = Vec::with_capacity(LONGEST);
    let (mut included, mut absent) = (0, 0);
    while absent <= target.0 {
        versions.push(absent);
        included = absent;
        absent = 2 * absent + 1;
    }
    versions.push(absent);
    while absent - included > 1 {
        let middle = included + (absent - included) / 2;
        versions.push(middle);
        if middle <= target.0 {
            included = middle;
        } else {
            absent = middle;
        }
    }
    versions
}

/// The ladder without the versions above its target (001, appendix B, monitor_binary_ladder).
pub fn monitoring_ladder(target: Version) -> Vec<u32> {
    let mut versions = binary_ladder(target);
    versions.retain(|&version| version <= target.0);
    versions
}

#[cfg(test)]
mod tests {
    use super::*;

    fn whole(target: u32) -> Vec<u32> {
        binary_ladder(Version::new(target).unwrap())
    }

    fn monitoring(target: u32) -> Vec<u32> {
        monitoring_ladder(Version::new(target).unwrap())
    }

    // The examples of paper 01, and that of 001, section 5.
    #[test]
    fn worked_examples() {
        assert_eq!(whole(0), [0, 1]);
        assert_eq!(whole(1), [0, 1, 3, 2]);
        assert_eq!(whole(3), [0, 1, 3, 7, 5, 4]);
        assert_eq!(whole(5), [0, 1, 3, 7, 5, 6]);
        assert_eq!(whole(6), [0, 1, 3, 7, 5, 6]);
        assert_eq!(whole(2), [0, 1, 3, 2]);
        assert_eq!(monitoring(0), [0]);
        assert_eq!(monitoring(2), [0, 1, 2]);
        assert_eq!(monitoring(5), [0, 1, 3, 5]);
        // 000, section 4.2.
        assert_eq!(monitoring(20), [0, 1, 3, 7, 15, 19, 20]);
    }

    // 2j + 2 versions from 2^j - 1 to 2^(j+1) - 2.
    #[test]
    fn lengths() {
        for j in 0..32u32 {
            let first = (1u64 << j) - 1;
            let last = (1u64 << (j + 1)) - 2;
            for target in [first, (first + last) / 2, last] {
                assert_eq!(whole(target as u32).len(), 2 * j as usize + 2);
            }
        }
    }

    #[test]
    fn greatest_version() {
        let ladder = whole(u32::MAX - 1);
        assert_eq!(ladder.len(), LONGEST);
        assert_eq!(ladder[32], u32::MAX);
        assert_eq!(ladder[63], u32::MAX - 1);
        assert_eq!(monitoring(u32::MAX - 1).len(), 63);
        assert_eq!(Version::new(u32::MAX), None);
    }

    // Every version up to the target and the one above it are settled by the ladder.
    #[test]
    fn ends_at_the_target_and_the_next() {
        for target in 0..2000 {
            let ladder = whole(target);
            assert!(ladder.contains(&target));
            assert!(ladder.contains(&(target + 1)));
            let mut sorted = ladder.clone();
            sorted.sort();
            sorted.dedup();
            assert_eq!(sorted.len(), ladder.len());
            let below: Vec<u32> = ladder.into_iter().filter(|&v| v <= target).collect();
            assert_eq!(monitoring(target), below);
        }
    }
}
