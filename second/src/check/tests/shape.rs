//! Numbers 9 and 10: what has to be shown, and the outputs for it.

use super::*;

#[test]
fn number_9_steps_of_a_search() {
    let commitment = commitment0();
    let first = format!("step\t0\t{commitment}\n");
    assert_eq!(second_with(&first, ""), 9);
    assert_eq!(second_with(&first, "step\t0\t-\n"), 9);
    assert_eq!(
        second_with("step\t1\t-", &format!("step\t1\t{commitment}")),
        9
    );
    assert_eq!(
        second_with("step\t3\t-", &format!("step\t3\t{commitment}")),
        9
    );
    assert_eq!(second_with("step\t2\t-\n", ""), 9);
    assert_eq!(second_with("step\t2\t-\n", "step\t2\t-\nstep\t4\t-\n"), 9);
    assert_eq!(
        second_with("step\t3\t-\nstep\t2\t-\n", "step\t2\t-\nstep\t3\t-\n"),
        9
    );
    let steps = format!("{first}step\t1\t-\nstep\t3\t-\nstep\t2\t-\n");
    assert_eq!(second_with(&steps, ""), 9);
}

#[test]
fn number_9_entries_and_lookups_of_a_search() {
    assert_eq!(second_with("entry\t1", "entry\t0"), 9);
    assert_eq!(second_with("entry\t2", "entry\t3"), 9);
    assert_eq!(second_with("in\t0", "in\t1"), 9);
    assert_eq!(second_with("no\t2", "no\t4"), 9);
    let text = String::from_utf8(second_search().response).unwrap();
    let lines: Vec<&str> = text.split_inclusive('\n').collect();
    // Lines 7 to 9 are entry 1 and its lookups, 10 to 14 entry 2 and its lookups, 15 the node.
    assert!(lines[7].starts_with("entry\t1") && lines[10].starts_with("entry\t2"));
    let without = |range: std::ops::Range<usize>| {
        let mut kept = lines.clone();
        kept.drain(range);
        let mut example = second_search();
        example.response = kept.concat().into_bytes();
        example.number()
    };
    assert_eq!(without(7..10), 9);
    assert_eq!(without(10..15), 9);
    assert_eq!(without(7..15), 9);
    assert_eq!(without(8..10), 9);
    assert_eq!(without(11..15), 9);
    assert_eq!(without(8..9), 9);
    // A shorter beginning of the ladder has the right versions.
    assert_eq!(without(9..10), 13);
    assert_eq!(without(14..15), 13);
    assert_eq!(second_with(lines[14], &lines[14].repeat(2)), 9);
}

#[test]
fn number_9_nodes() {
    let node = format!("node\t{}\n", hex(&log().log_leaves[0]));
    assert_eq!(second_with(&node, ""), 9);
    assert_eq!(second_with(&node, &node.repeat(2)), 9);
    assert_eq!(monitoring_with("end\n", &format!("{node}end\n")), 9);
    // Without the kept values the same entries need the same node here, but not in monitoring.
    let new_state = "size\t0\t0\t6162\n".as_bytes();
    let mut example = second_search();
    example.state = new_state.to_vec();
    example.new_state = String::from_utf8(example.new_state)
        .unwrap()
        .replace("pair\t1\t0\n", "")
        .into_bytes();
    example.yes = "1\t3\t1";
    assert_eq!(example.number(), 0);
}

#[test]
fn number_9_in_monitoring() {
    let commitment = commitment0();
    let step = format!("step\t0\t{commitment}\n");
    assert_eq!(monitoring_with(&step, ""), 9);
    assert_eq!(monitoring_with(&step, "step\t0\t-\n"), 9);
    assert_eq!(monitoring_with(&step, &step.repeat(2)), 9);
    let second_step = format!("{step}step\t1\t{commitment}\n");
    assert_eq!(monitoring_with(&step, &second_step), 9);
    let lookup = format!("in\t0\t{}\n", hex(&log().stranger));
    assert_eq!(monitoring_with(&lookup, ""), 9);
    assert_eq!(monitoring_with(&lookup, &lookup.repeat(2)), 9);
    assert_eq!(monitoring_with("in\t0", "in\t1"), 9);
    // Entry 2 is on no right path.
    assert_eq!(monitoring_with("end\n", &format!("{lookup}end\n")), 9);
    assert_eq!(monitoring_with("entry\t1", "entry\t0"), 9);
}

#[test]
fn number_10_missing_output() {
    for versions in [&[0, 1, 2][..], &[1, 2, 3], &[0, 1, 3], &[]] {
        let mut example = second_search();
        example.sheet = sheet(versions);
        assert_eq!(example.number(), 10);
    }
    let mut example = monitoring();
    example.sheet = sheet(&[1, 2, 3]);
    assert_eq!(example.number(), 10);
}
