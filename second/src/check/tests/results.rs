//! Numbers 14 to 16: the log, the signed text and room for the results.

use super::*;

#[test]
fn number_14_kept_values() {
    let log = log();
    let first_two = hex(&log.first_two);
    let last = hex(&log.log_leaves[2]);
    for kept in [first_two, last] {
        let changed = second_search().with_state(&kept, &hex(&[5; 32]));
        assert_eq!(changed.number(), 14);
    }
    // The node under the first kept value.
    let node = format!("node\t{}", hex(&log.log_leaves[0]));
    assert_eq!(second_with(&node, &format!("node\t{}", hex(&[5; 32]))), 14);
    // With nothing shown below it, a wrong one cannot be told, but it moves the root.
    let unseen = monitoring().with_state(&hex(&log.log_leaves[0]), &hex(&[5; 32]));
    assert_eq!(unseen.number(), 15);
    // In the log of 64 entries each node is under the one kept value.
    for height in 0..6 {
        let (node, other) = (hex(&[height; 32]), hex(&[height + 9; 32]));
        let changed = full_map(16).with(&format!("node\t{node}"), &format!("node\t{other}"));
        assert_eq!(changed.number(), 14);
    }
}

#[test]
fn number_15_signed_text() {
    for example in [first_search(), monitoring(), second_search()] {
        for index in 0..example.signed.len() {
            let mut changed = example.clone();
            changed.signed[index] ^= 1;
            assert_eq!(changed.number(), 15);
        }
        let mut shorter = example.clone();
        shorter.signed.pop();
        assert_eq!(shorter.number(), 15);
        let mut longer = example.clone();
        longer.signed.push(0);
        assert_eq!(longer.number(), 15);
        let mut empty = example.clone();
        empty.signed.clear();
        assert_eq!(empty.number(), 15);
    }
}

#[test]
fn number_16_room() {
    for (room, number) in [(0, 16), (5, 16), (6, 0), (7, 0), (2000, 0)] {
        let mut example = second_search();
        example.value_room = room;
        assert_eq!(example.number(), number, "{room}");
    }
    // Monitoring needs no room for a value.
    let mut example = monitoring();
    example.value_room = 0;
    assert_eq!(example.number(), 0);
}

// 48 map entries, the last of which is the one found, or is not.
#[test]
fn number_16_map() {
    assert_eq!(full_map(16).number(), 0);
    assert_eq!(full_map(15).number(), 16);
    assert_eq!(full_map(0).number(), 16);
    let mut one_less = full_map(15).with_state("pair\t15\t0\n", "");
    one_less.new_state = full_map(16).new_state;
    assert_eq!(one_less.number(), 0);
}

// Nothing in the map and nothing known: monitoring shows the frontier and needs no outputs.
#[test]
fn monitoring_without_a_map() {
    let log = log();
    let mut example = monitoring();
    let root = hex(&log.prefix_roots[0]);
    let text = String::from_utf8(first_search().response).unwrap();
    let identifier = &text[..text.find("head").unwrap()];
    let start = identifier.replace("search", "monitor");
    example.response = format!("{start}head\t1\nentry\t0\t100\t{root}\nend\n").into_bytes();
    example.state = b"size\t0\t0\t6162\n".to_vec();
    example.sheet = vec![];
    example.signed = first_search().signed;
    example.clock = 100;
    example.yes = "-\t1\t0";
    let kept = hex(&log.log_leaves[0]);
    example.new_state = format!("size\t1\t100\t6162\nkeep\t{kept}\n").into_bytes();
    assert_eq!(example.number(), 0);
    // Again from the state that this gave, and from one with a pair on the frontier.
    example.state = example.new_state.clone();
    assert_eq!(example.number(), 0);
    example.state.extend_from_slice(b"pair\t0\t7\n");
    example.new_state = example.state.clone();
    example.yes = "-\t1\t1";
    assert_eq!(example.number(), 0);
}
