//! The implicit binary search tree over the entries (004 4.3.1 with start 0; 001 Appendix A).

/// How many levels of children an entry may have below it (004 4.3.1).
pub fn level(position: u64) -> u32 {
    position.trailing_ones()
}

/// The entry at which a search of so many entries starts (004 4.3.1).
pub fn root(size: u64) -> u64 {
    (1 << size.ilog2()) - 1
}

/// The left child of an entry above level 0 (004 4.3.1).
pub fn left(position: u64) -> u64 {
    position ^ (1 << (level(position) - 1))
}

/// The right child, among so many entries, of one that has a later entry below it (004 4.3.1).
pub fn right(position: u64, size: u64) -> u64 {
    let mut child = position ^ (3 << (level(position) - 1));
    while child >= size {
        child = left(child);
    }
    child
}

/// What is met going right from the root as far as the last entry (004 4.3.1).
pub fn frontier(size: u64) -> Vec<u64> {
    let mut position = root(size);
    let mut entries = vec![position];
    while position != size - 1 {
        position = right(position, size);
        entries.push(position);
    }
    entries
}

/// The ancestors of an entry at greater positions, rising; paper 01 calls this the right path.
pub fn right_ancestors(position: u64, size: u64) -> Vec<u64> {
    let mut ancestors = Vec::new();
    let mut ancestor = root(size);
    while ancestor != position {
        if position < ancestor {
            ancestors.push(ancestor);
            ancestor = left(ancestor);
        } else {
            ancestor = right(ancestor, size);
        }
    }
    ancestors.reverse();
    ancestors
}
