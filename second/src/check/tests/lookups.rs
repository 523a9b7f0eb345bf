//! Numbers 12 and 13: lookups and what they show.

use super::*;

/// An output with this first byte, in hex.
fn output(first: u8) -> String {
    format!("{first:02x}{}", "00".repeat(31))
}

#[test]
fn number_12_paths() {
    let log = log();
    for (value, other) in [
        (log.stranger, [1; 32]),
        (log.leaf0, [0; 32]),
        (log.pair, [0; 32]),
    ] {
        assert_eq!(second_with(&hex(&value), &hex(&other)), 12);
    }
    let zero_sibling = format!("{}{}", hex(&[0; 32]), hex(&log.stranger));
    assert_eq!(second_with(&zero_sibling, &hex(&log.stranger)), 12);
    assert_eq!(
        second_with("\nno\t2\t", &format!("\nno\t2\t{}", hex(&[0; 32]))),
        12
    );
    let root = hex(&log.prefix_roots[2]);
    assert_eq!(second_with(&root, &hex(&[3; 32])), 12);
    // The commitment of a step, the opening and the value are in the leaves.
    assert_eq!(second_with(&commitment0(), &hex(&[3; 32])), 12);
    assert_eq!(second_with(&"22".repeat(16), &"23".repeat(16)), 12);
    assert_eq!(second_with("\t7365636f6e64\n", "\t7365636f6e65\n"), 12);
    assert_eq!(second_with("\t7365636f6e64\n", "\t-\n"), 12);
    // An output approved by the chip that differs in a bit on the path, or off it.
    let mut example = second_search();
    example.sheet[2 * 36 + 4] ^= 0x80;
    assert_eq!(example.number(), 12);
    example.sheet[2 * 36 + 4] ^= 0x80;
    example.sheet[2 * 36 + 4 + 31] ^= 1;
    assert_eq!(example.number(), 0);
    example.sheet[36 + 4 + 31] ^= 1;
    assert_eq!(example.number(), 12);
}

// The leaf of the searched version is no other leaf, even where its path is right.
#[test]
fn number_12_own_leaf() {
    let log = log();
    let siblings = [log.leaf0, [0; 32], log.stranger]
        .map(|value| hex(&value))
        .concat();
    let own = format!("{}\t{}", output(OUTPUTS[1]), hex(&log.commitments[1]));
    let included = format!("in\t1\t{siblings}");
    assert_eq!(
        second_with(&included, &format!("nl\t1\t{own}\t{siblings}")),
        12
    );
    let own = format!("{}\t{}", output(OUTPUTS[0]), hex(&log.commitments[0]));
    let in_first = first_search().with("in\t0\t-", &format!("nl\t0\t{own}\t-"));
    assert_eq!(in_first.number(), 12);
}

// At entry 1 the stranger stands on the path of version 1, but not on that of version 0.
#[test]
fn number_12_leaf_off_the_path() {
    let log = log();
    let (sibling, stranger) = (hex(&log.leaf0), hex(&log.stranger));
    let leaf = format!("{}\t{}", output(0b1011_0000), hex(&[0x77; 32]));
    let lookup = format!("in\t0\t{stranger}\n");
    assert_eq!(
        second_with(&lookup, &format!("nl\t0\t{leaf}\t{sibling}\n")),
        12
    );
    // Another commitment of the stranger is another leaf.
    assert_eq!(second_with(&"77".repeat(32), &"78".repeat(32)), 12);
    assert_eq!(second_with(&output(0b1011_0000), &output(0b1011_1000)), 12);
}

// A bad path in the last lookup comes before an `in` above the target in the first entry.
#[test]
fn number_12_before_13() {
    let log = log();
    let early = quiet_search().with(&complete_at_entry_1(&log), &with_version_1(&log));
    assert_eq!(early.number(), 13);
    let leaf0 = format!("\t{}\nnode", hex(&log.leaf0));
    let both = early.with(&leaf0, &format!("\t{}\nnode", hex(&[0; 32])));
    assert_eq!(both.number(), 12);
}

/// Lookups at entry 1 that say version 1 is there, above the target 0.
fn with_version_1(log: &Log) -> String {
    format!("in\t0\t{}\nin\t1\t-\n", hex(&log.stranger))
}

// The path of an `in` above the target does not matter, nor the entry at which it stands.
#[test]
fn number_13_in_above_the_target() {
    let log = log();
    let lookup = format!("no\t2\t{}{}", hex(&log.leaf0), hex(&log.pair));
    for siblings in ["-", &"00".repeat(32 * 255)] {
        assert_eq!(second_with(&lookup, &format!("in\t2\t{siblings}")), 13);
    }
    assert_eq!(quiet_search().number(), 0);
    let complete = complete_at_entry_1(&log);
    let at_first = quiet_search().with(&complete, &with_version_1(&log));
    assert_eq!(at_first.number(), 13);
    let at_last = quiet_search().with(
        &format!("{complete}node"),
        &format!("{}node", with_version_1(&log)),
    );
    assert_eq!(at_last.number(), 13);
}

// Without its last lookups the last entry is neither whole nor short.
#[test]
fn number_13_ends_too_early() {
    let text = String::from_utf8(second_search().response).unwrap();
    let lines: Vec<&str> = text.split_inclusive('\n').collect();
    for kept in 11..14 {
        let mut shorter = lines.clone();
        shorter.drain(kept + 1..15);
        let mut example = second_search();
        example.response = shorter.concat().into_bytes();
        assert_eq!(example.number(), 13, "{kept}");
    }
    // So is an early entry that goes on after the missing version.
    let leaf = format!("{}\t{}", output(OUTPUTS[0]), hex(&log().commitments[0]));
    let more = format!("nl\t3\t{leaf}\t{}\n", hex(&log().stranger));
    assert_eq!(second_with(lines[9], &format!("{}{more}", lines[9])), 13);
}

// An empty prefix tree, whose root is zero, has no version: an entry with it is short.
#[test]
fn number_13_order() {
    let log = log();
    let (root, zero) = (hex(&log.prefix_roots[1]), hex(&[0; 32]));
    let complete = complete_at_entry_1(&log);
    let entry = |n: u64, root: &str| format!("entry\t{n}\t{}\t{root}\n", n * 100 + 100);
    let emptied = |n: u64| {
        quiet_search().with(
            &format!("{}{complete}", entry(n, &root)),
            &format!("{}no\t0\t-\n", entry(n, &zero)),
        )
    };
    // Short and then whole is as it should be, only the log is another; whole and then short not.
    assert_eq!(emptied(1).number(), 15);
    assert_eq!(emptied(2).number(), 13);
    let both = emptied(1).with(
        &format!("{}{complete}", entry(2, &root)),
        &format!("{}no\t0\t-\n", entry(2, &zero)),
    );
    assert_eq!(both.number(), 13);
}

// In monitoring too, an empty prefix tree is proved by its zero root.
#[test]
fn number_13_monitoring() {
    let log = log();
    let lookup = format!("in\t0\t{}", hex(&log.stranger));
    let empty = monitoring()
        .with(&hex(&log.prefix_roots[1]), &hex(&[0; 32]))
        .with(&lookup, "no\t0\t-");
    assert_eq!(empty.number(), 13);
    let wrong_path = monitoring().with(&lookup, "no\t0\t-");
    assert_eq!(wrong_path.number(), 12);
}
