//! The implicit binary search tree over the entries of a log (004, 4.3.1, with start 0).

/// How high an entry stands in the tree: the number of one bits its position ends in.
fn level(position: u64) -> u32 {
    position.trailing_ones()
}

/// The root of the tree of n entries, n at least 1.
pub fn root(n: u64) -> u64 {
    let highest_bit = n.checked_ilog2().unwrap_or(0);
    (1 << highest_bit) - 1
}

/// The left child of an entry, if it stands above the lowest level.
fn left(position: u64) -> Option<u64> {
    let below = level(position).checked_sub(1)?;
    Some(position ^ (1 << below))
}

/// The right child of an entry in the tree of n entries, if it has one.
fn right(position: u64, n: u64) -> Option<u64> {
    let below = level(position).checked_sub(1)?;
    let mut child = position ^ (3 << below);
    while child >= n {
        child = left(child)?;
    }
    Some(child)
}

/// The frontier of a log of n entries: what is met on the way right from the root to the last one.
pub fn frontier(n: u64) -> Vec<u64> {
    let mut positions = Vec::with_capacity(n.count_ones() as usize);
    let mut next = (n > 0).then(|| root(n));
    while let Some(position) = next {
        positions.push(position);
        next = right(position, n);
    }
    positions
}

/// The ancestors of an entry that lie to its right, rising: paper 01 calls them its right path
/// (Ladder, search, monitoring), 000 the part of the direct path to the right (4.4).
pub fn right_ancestors(position: u64, n: u64) -> Vec<u64> {
    let mut ancestors = Vec::new();
    let mut next = Some(root(n));
    while let Some(ancestor) = next {
        if position == ancestor {
            break;
        }
        next = if position < ancestor {
            ancestors.push(ancestor);
            left(ancestor)
        } else {
            right(ancestor, n)
        };
    }
    ancestors.reverse();
    ancestors
}

#[cfg(test)]
mod tests {
    use super::*;

    // The tree of n entries that begins at `start`, as 001, 4.1 defines it: each entry's ancestors.
    fn ancestors_of(position: u64, start: u64, n: u64) -> Vec<u64> {
        let mut power = 1;
        while power * 2 <= n {
            power *= 2;
        }
        let root = start + power - 1;
        let mut path = match position {
            p if p < root => ancestors_of(position, start, power - 1),
            p if p > root => ancestors_of(position, root + 1, n - power),
            _ => return vec![],
        };
        path.push(root);
        path
    }

    // Paper 01, Worked examples; 004, 4.3.1; 001, 4.1.
    #[test]
    fn frontiers() {
        assert_eq!(frontier(1), [0]);
        assert_eq!(frontier(13), [7, 11, 12]);
        assert_eq!(frontier(14), [7, 11, 13]);
        assert_eq!(frontier(60), [31, 47, 55, 59]);
        assert_eq!(frontier(50), [31, 47, 49]);
        assert_eq!(frontier(1 << 40), [(1 << 40) - 1]);
        assert_eq!(frontier((1 << 40) - 1).len(), 40);
        assert_eq!(frontier(0), []);
    }

    #[test]
    fn right_paths() {
        assert_eq!(right_ancestors(4, 14), [5, 7]);
        assert_eq!(right_ancestors(8, 14), [9, 11]);
        assert_eq!(right_ancestors(13, 14), []);
        assert_eq!(right_ancestors(0, 1), []);
        assert_eq!(right_ancestors(0, 1 << 40).len(), 40);
    }

    #[test]
    fn agrees_with_the_definition() {
        for n in 1..200 {
            let front = frontier(n);
            assert_eq!(front.len(), n.count_ones() as usize);
            assert_eq!(*front.last().unwrap(), n - 1);
            for position in 0..n {
                let ancestors = ancestors_of(position, 0, n);
                let to_the_right: Vec<u64> = ancestors
                    .iter()
                    .copied()
                    .filter(|&a| a > position)
                    .collect();
                assert_eq!(right_ancestors(position, n), to_the_right);
                // An entry is on the frontier exactly if nothing above it lies to its right.
                assert_eq!(front.contains(&position), to_the_right.is_empty());
                // A right path ends on the frontier.
                assert!(to_the_right.last().is_none_or(|last| front.contains(last)));
            }
        }
    }
}
