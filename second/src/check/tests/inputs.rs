//! Numbers 1 to 8: inputs, lines and what was asked.

use super::*;

#[test]
fn accepted() {
    assert_eq!(first_search().number(), 0);
    assert_eq!(monitoring().number(), 0);
    assert_eq!(second_search().number(), 0);
}

#[test]
fn number_1_lengths() {
    let change = |change: fn(&mut Example)| {
        let mut example = second_search();
        change(&mut example);
        example.number()
    };
    // At the limit a later number answers, one beyond it this one.
    assert_eq!(change(|e| e.response.resize(limits::RESPONSE, b'\n')), 5);
    assert_eq!(
        change(|e| e.response.resize(limits::RESPONSE + 1, b'\n')),
        1
    );
    assert_eq!(change(|e| e.settings.resize(2048, 0)), 2);
    assert_eq!(change(|e| e.settings.resize(2049, 0)), 1);
    assert_eq!(change(|e| e.sheet.resize(36_864, 0)), 4);
    assert_eq!(change(|e| e.sheet.resize(36_865, 0)), 1);
    assert_eq!(change(|e| e.signed.resize(2088, 0)), 15);
    assert_eq!(change(|e| e.signed.resize(2089, 0)), 1);
    assert_eq!(change(|e| e.state.resize(8192, b'\n')), 3);
    assert_eq!(change(|e| e.state.resize(8193, b'\n')), 1);
    assert_eq!(change(|e| e.identifier.truncate(15)), 1);
    assert_eq!(change(|e| e.identifier.push(16)), 1);
    assert_eq!(change(|e| e.identifier.clear()), 1);
    assert_eq!(change(|e| e.state_room = 8191), 1);
    assert_eq!(change(|e| e.state_room = 0), 1);
    assert_eq!(change(|e| e.state_room = 9000), 0);
}

// Monitoring needs the room for a new state too.
#[test]
fn number_1_in_monitoring() {
    let mut example = monitoring();
    example.state_room = 8191;
    assert_eq!(example.number(), 1);
}

#[test]
fn number_2_settings() {
    for (index, byte) in [
        (1, 2),
        (0, 0xf0),
        (2, 0),
        (2, 2),
        (2, 3),
        (34, 1),
        (34, 2),
        (4, 3),
    ] {
        let mut example = second_search();
        example.settings[index] = byte;
        assert_eq!(example.number(), 2, "{index} {byte}");
    }
    let mut longer = second_search();
    longer.settings.push(0);
    assert_eq!(longer.number(), 2);
    let mut empty = second_search();
    empty.settings.clear();
    assert_eq!(empty.number(), 2);
}

#[test]
fn number_3_state() {
    for (part, other) in [
        ("size\t3", "size\t2"),
        ("size\t3", "size\t03"),
        ("size\t3", "size\t1099511627777"),
        ("\t6162\n", "\t616\n"),
        ("pair\t1", "pair\t3"),
        ("pair\t1\t0", "pair\t1\t4294967295"),
        ("pair\t1\t0\n", "pair\t1\t0"),
        ("pair\t1\t0\n", "pair\t1\t0\npair\t1\t0\n"),
    ] {
        let example = second_search().with_state(part, other);
        assert_eq!(example.number(), 3, "{other:?}");
    }
    let mut empty = second_search();
    empty.state.clear();
    assert_eq!(empty.number(), 3);
}

#[test]
fn number_4_sheet() {
    let mut example = second_search();
    example.sheet.push(0);
    assert_eq!(example.number(), 4);
    example.sheet = sheet(&[0, 2, 1, 3]);
    assert_eq!(example.number(), 4);
    example.sheet = sheet(&[0, 1, 1, 2, 3]);
    assert_eq!(example.number(), 4);
    // Records that no step needs do no harm.
    let unused = [&u32::MAX.to_be_bytes()[..], &[9; 32]].concat();
    example.sheet = [sheet(&[0, 1, 2, 3]), unused].concat();
    assert_eq!(example.number(), 0);
}

#[test]
fn number_5_lines() {
    assert_eq!(second_with("end\n", "end\n\n"), 5);
    assert_eq!(second_with("kt\t", "kt2\t"), 5);
    assert_eq!(second_with("\tsearch\t", "\tmonitor\t"), 5);
    assert_eq!(
        second_with("\t6162\n", &format!("\t{}\n", "61".repeat(256))),
        5
    );
    assert_eq!(second_with("target\t1", "target\t4294967296"), 5);
    assert_eq!(
        second_with("no\t2\t", &format!("no\t2\t{}", "00".repeat(254 * 32))),
        5
    );
    assert_eq!(
        second_with("no\t2\t", &format!("no\t2\t{}", "00".repeat(253 * 32))),
        12
    );
}

#[test]
fn number_6_request() {
    // A whole answer of the other kind.
    let mut other_kind = second_search();
    other_kind.kind = Kind::Monitor;
    assert_eq!(other_kind.number(), 6);
    let mut other_kind = monitoring();
    other_kind.kind = Kind::Search;
    assert_eq!(other_kind.number(), 6);
    // One bit of the identifier, on either side.
    for bit in 0..128 {
        let mut example = first_search();
        example.identifier[bit / 8] ^= 1 << (bit % 8);
        assert_eq!(example.number(), 6);
    }
    assert_eq!(second_with("kt\tsearch\t00", "kt\tsearch\t01"), 6);
    // Another label, a shorter one and none.
    assert_eq!(second_with("\t6162\n", "\t6163\n"), 6);
    assert_eq!(second_with("\t6162\n", "\t61\n"), 6);
    assert_eq!(second_with("\t6162\n", "\t-\n"), 6);
    assert_eq!(second_search().with_state("\t6162\n", "\t-\n").number(), 6);
}

#[test]
fn number_7_tree_size() {
    assert_eq!(second_with("head\t3", "head\t0"), 7);
    assert_eq!(second_with("head\t3", "head\t2"), 7);
    assert_eq!(second_with("head\t3", "head\t4"), 9);
    assert_eq!(second_with("head\t3", "head\t1099511627776"), 9);
    assert_eq!(second_with("head\t3", "head\t1099511627777"), 7);
    assert_eq!(second_with("head\t3", "head\t18446744073709551615"), 7);
    assert_eq!(first_search().with("head\t1", "head\t0").number(), 7);
    assert_eq!(monitoring_with("head\t3", "head\t0"), 7);
}

#[test]
fn number_8_target() {
    assert_eq!(second_with("target\t1", "target\t4294967295"), 8);
    assert_eq!(second_with("target\t1", "target\t4294967294"), 9);
    assert_eq!(second_with("target\t1", "target\t0"), 9);
    let known = |version: &str| {
        let pair = format!("pair\t1\t{version}\n");
        second_search().with_state("pair\t1\t0\n", &pair)
    };
    assert_eq!(known("2").number(), 8);
    assert_eq!(known("4294967294").number(), 8);
    let mut equal = known("1");
    equal.new_state = [&equal.state[..], b"pair\t2\t1\n"].concat();
    assert_eq!(equal.number(), 0);
    // Any of the pairs counts, not just the last.
    let several = second_search().with_state("pair\t1\t0\n", "pair\t0\t2\npair\t1\t0\n");
    assert_eq!(several.number(), 8);
}
