//! Number 11: times and the clock.

use super::*;

// Max_ahead is 10, max_behind 1000 and the last entry's time 300.
#[test]
fn number_11_clock() {
    for (clock, number) in [(290, 0), (289, 11), (0, 11), (1300, 0), (1301, 11)] {
        let mut example = second_search();
        example.clock = clock;
        assert_eq!(example.number(), number, "{clock}");
        let mut example = monitoring();
        example.clock = clock;
        assert_eq!(example.number(), number, "{clock}");
    }
}

// The bounds are sums of whole numbers, which may pass 2^64.
#[test]
fn number_11_large_numbers() {
    for (clock, ahead, behind, number) in [
        (u64::MAX, u64::MAX, u64::MAX, 0),
        (u64::MAX, 0, u64::MAX, 0),
        (u64::MAX, u64::MAX, u64::MAX - 300, 0),
        (u64::MAX, u64::MAX, u64::MAX - 301, 11),
        (0, 300, 0, 0),
        (0, 299, u64::MAX, 11),
        (300, 0, 0, 0),
        (301, 0, 0, 11),
        (299, 0, 0, 11),
    ] {
        let mut example = second_search().with_bounds(ahead, behind);
        example.clock = clock;
        assert_eq!(example.number(), number, "{clock} {ahead} {behind}");
    }
}

#[test]
fn number_11_times() {
    // Falling, and later than the kept time below the old size.
    assert_eq!(second_with("entry\t1\t200", "entry\t1\t301"), 11);
    assert_eq!(second_with("entry\t2\t300", "entry\t2\t301"), 11);
    // A smaller time of the last entry is no fault of order, but the path and the log are others.
    assert_eq!(second_with("entry\t2\t300", "entry\t2\t299"), 14);
    assert_eq!(second_with("entry\t1\t200", "entry\t1\t300"), 14);
    // From the old size on, not earlier than the kept time.
    assert_eq!(monitoring_with("entry\t1\t200", "entry\t1\t99"), 11);
    assert_eq!(monitoring_with("entry\t1\t200", "entry\t1\t100"), 15);
    assert_eq!(monitoring_with("entry\t1\t200", "entry\t1\t301"), 11);
    assert_eq!(monitoring_with("entry\t1\t200", "entry\t1\t300"), 15);
    assert_eq!(monitoring_with("entry\t2\t300", "entry\t2\t199"), 11);
    assert_eq!(monitoring_with("entry\t2\t300", "entry\t2\t200"), 15);
    assert_eq!(
        first_search().with("entry\t0\t100", "entry\t0\t0").number(),
        15
    );
}
