//! The binary ladder (001 Appendix B; paper 01, Ladder, search, monitoring).

/// The versions looked up to show that the target is the greatest, in order (001 Appendix B).
/// For 2^32 - 1, which is no version, those that a version field cannot hold are left out.
pub fn binary_ladder(target: u32) -> Vec<u32> {
    let target = u64::from(target);
    let mut ladder = vec![0];
    let (mut below, mut above) = (0, 1);
    while above <= target {
        ladder.push(above);
        (below, above) = (above, 2 * above + 1);
    }
    ladder.push(above);
    while below + 1 < above {
        let middle = (below + above) / 2;
        ladder.push(middle);
        if middle <= target {
            below = middle;
        } else {
            above = middle;
        }
    }
    ladder
        .into_iter()
        .filter_map(|version| u32::try_from(version).ok())
        .collect()
}

/// The versions of the target's ladder up to the target, in order (001 Appendix B, monitoring).
pub fn monitoring_ladder(target: u32) -> Vec<u32> {
    let mut ladder = binary_ladder(target);
    ladder.retain(|&version| version <= target);
    ladder
}
