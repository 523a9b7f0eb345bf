//! Well-formed responses and broken ones (paper 01, Response lines).

use super::*;

fn reads(text: &str) -> bool {
    match Response::read(text.as_bytes()) {
        Ok(_) => true,
        Err(refusal) => {
            assert_eq!(refusal, Refusal::Lines);
            false
        }
    }
}

fn h32(byte: &str) -> String {
    byte.repeat(32)
}

// A search with one of each line.
fn search() -> String {
    let (a, b) = (h32("aa"), h32("bb"));
    let identifier = "01".repeat(16);
    format!(
        "kt\tsearch\t{identifier}\t6c\nhead\t5\ntarget\t1\t{identifier}\tff00\n\
         step\t0\t{a}\nstep\t1\t-\nentry\t3\t1000\t{a}\nin\t0\t{a}{b}\nno\t1\t-\n\
         nl\t3\t{a}\t{b}\t{b}\nentry\t4\t1001\t{b}\nnode\t{a}\nnode\t{b}\nend\n"
    )
}

fn monitor() -> String {
    let identifier = "01".repeat(16);
    format!("kt\tmonitor\t{identifier}\t-\nhead\t0\nend\n")
}

// Puts another text where a part of the valid search stands, and reads it.
fn with(part: &str, other: &str) -> bool {
    let text = search();
    assert!(text.contains(part), "{part:?}");
    reads(&text.replacen(part, other, 1))
}

#[test]
fn search_fields() {
    let text = search();
    let response = Response::read(text.as_bytes()).unwrap();
    assert_eq!(response.kind(), Kind::Search);
    assert_eq!(response.identifier, &[*b"01"; 16]);
    assert_eq!(response.label, [*b"6c"]);
    assert_eq!(response.tree_size, 5);
    let target = response.target.unwrap();
    assert_eq!(target.version, 1);
    assert_eq!(target.value, [*b"ff", *b"00"]);
    let versions: Vec<u32> = response.steps.iter().map(|s| s.version).collect();
    assert_eq!(versions, [0, 1]);
    assert!(response.steps[0].commitment.is_some());
    assert!(response.steps[1].commitment.is_none());
    let [first, second] = &response.entries[..] else {
        panic!()
    };
    assert_eq!((first.position, first.timestamp), (3, 1000));
    assert_eq!((second.position, second.timestamp), (4, 1001));
    assert_eq!(second.prefix_root, &[*b"bb"; 32]);
    let lookups = response.lookups_of(first);
    let depths: Vec<usize> = lookups.iter().map(|l| l.siblings.len()).collect();
    assert_eq!(depths, [2, 0, 1]);
    assert!(lookups[0].is_inclusion());
    assert!(!lookups[1].is_inclusion());
    assert!(!lookups[2].is_inclusion());
    assert_eq!(lookups[2].version, 3);
    assert!(response.lookups_of(second).is_empty());
    assert_eq!(response.nodes, [&[*b"aa"; 32], &[*b"bb"; 32]]);
}

// A response may lack all steps, entries and nodes.
#[test]
fn monitor_fields() {
    let text = monitor();
    let response = Response::read(text.as_bytes()).unwrap();
    assert_eq!(response.kind(), Kind::Monitor);
    assert!(response.target.is_none());
    assert!(response.label.is_empty());
    assert!(response.steps.is_empty() && response.entries.is_empty());
    assert!(response.nodes.is_empty());
}

#[test]
fn words() {
    assert!(!with("kt\t", "kt2\t"));
    assert!(!with("\tsearch\t", "\tfixed\t"));
    assert!(!with("\tsearch\t", "\tSearch\t"));
    assert!(!with("\tsearch\t", "\tmonitor\t"));
    assert!(!with("head\t", "Head\t"));
    assert!(!with("step\t", "steps\t"));
    assert!(!with("entry\t", "entry "));
    assert!(!with("in\t", "in \t"));
    assert!(!with("in\t", "is\t"));
    assert!(!with("end\n", "end"));
    assert!(!with("end\n", "end\t\n"));
    assert!(!with("end\n", "end\n\n"));
    assert!(!with("end\n", "end\nend\n"));
    assert!(!with("end\n", "end\r\n"));
    assert!(!with("end\n", ""));
    assert!(!reads(""));
    assert!(!reads(&monitor().replace(
        "end",
        "target\t0\t01010101010101010101010101010101\t-\nend"
    )));
}

#[test]
fn order_of_lines() {
    let text = search();
    let lines: Vec<&str> = text.split_inclusive('\n').collect();
    for index in 0..lines.len() - 1 {
        let mut swapped = lines.clone();
        swapped.swap(index, index + 1);
        // Two steps, two lookups, two nodes, or a lookup and the next entry, may change places.
        let free = matches!(index, 3 | 6 | 7 | 8 | 10);
        assert_eq!(reads(&swapped.concat()), free, "{index}");
    }
    // A lookup needs an entry before it.
    assert!(!with("entry\t3", "in\t0\t-\nentry\t3"));
    assert!(!with("node\t", "step\t9\t-\nnode\t"));
    assert!(!with("end\n", "in\t0\t-\nend\n"));
}

#[test]
fn number_fields() {
    for (line, most, beyond) in [
        ("head\t5", "18446744073709551615", "18446744073709551616"),
        ("entry\t3", "18446744073709551615", "18446744073709551616"),
        ("\t1000", "18446744073709551615", "18446744073709551616"),
        ("target\t1", "4294967295", "4294967296"),
        ("step\t0", "4294967295", "4294967296"),
        ("in\t0", "4294967295", "4294967296"),
        ("no\t1", "4294967295", "4294967296"),
        ("nl\t3", "4294967295", "4294967296"),
    ] {
        let start = line.split_inclusive('\t').next().unwrap();
        assert!(with(line, &format!("{start}{most}")), "{line}");
        for broken in [beyond, "", "00", "01", "+1", "-1", "-", " 1", "1 ", "a"] {
            assert!(!with(line, &format!("{start}{broken}")), "{line} {broken}");
        }
    }
}

#[test]
fn fixed_lengths() {
    let (a, b, id) = (h32("aa"), h32("bb"), "01".repeat(16));
    for (before, field) in [
        ("kt\tsearch\t", &id),
        ("target\t1\t", &id),
        ("step\t0\t", &a),
        ("entry\t3\t1000\t", &a),
        ("nl\t3\t", &a),
        (&format!("nl\t3\t{a}\t"), &b),
        ("node\t", &a),
    ] {
        let whole = format!("{before}{field}");
        let broken = [
            String::new(),
            field[1..].to_string(),
            field[2..].to_string(),
            format!("{field}0"),
            format!("{field}00"),
            field
                .replacen("0", "A", 1)
                .replacen("a", "A", 1)
                .replacen("b", "B", 1),
            format!(" {field}"),
            format!("{field} "),
            format!("{field}\r"),
            format!("{field}\t"),
        ];
        for other in broken {
            assert!(
                !with(&whole, &format!("{before}{other}")),
                "{before:?} {other:?}"
            );
        }
        // Only a step's commitment may be left out.
        assert_eq!(with(&whole, &format!("{before}-")), before == "step\t0\t");
    }
}

#[test]
fn bounded_lengths() {
    assert!(with("\t6c\n", "\t-\n"));
    assert!(with("\t6c\n", &format!("\t{}\n", "6c".repeat(255))));
    assert!(!with("\t6c\n", &format!("\t{}\n", "6c".repeat(256))));
    assert!(!with("\t6c\n", "\t\n"));
    assert!(!with("\t6c\n", "\t6C\n"));
    assert!(!with("\t6c\n", "\t6c6\n"));
    assert!(with("\tff00\n", "\t-\n"));
    assert!(with("\tff00\n", &format!("\t{}\n", "6c".repeat(1024))));
    assert!(!with("\tff00\n", &format!("\t{}\n", "6c".repeat(1025))));
    assert!(!with("\tff00\n", "\t\n"));
}

#[test]
fn sibling_lists() {
    let (a, b) = (h32("aa"), h32("bb"));
    let in_line = format!("in\t0\t{a}{b}");
    let no_line = "no\t1\t-".to_string();
    let nl_line = format!("nl\t3\t{a}\t{b}\t{b}");
    for (line, before) in [
        (&in_line, "in\t0\t".to_string()),
        (&no_line, "no\t1\t".to_string()),
        (&nl_line, format!("nl\t3\t{a}\t{b}\t")),
    ] {
        assert!(with(line, &format!("{before}-")));
        assert!(with(line, &format!("{before}{}", a.repeat(255))));
        assert!(!with(line, &format!("{before}{}", a.repeat(256))));
        assert!(!with(line, &before));
        assert!(!with(line, &format!("{before}{a}-")));
        assert!(!with(line, &format!("{before}{a}\t{b}")));
        assert!(!with(line, &format!("{before}{}", &a[2..])));
        assert!(!with(line, &format!("{before}{a}00")));
        assert!(!with(line, &format!("{before}{}", a.to_uppercase())));
    }
}

// Cut anywhere, a response is no response.
#[test]
fn cut_short() {
    let text = search();
    for length in 0..text.len() {
        assert!(!reads(&text[..length]), "{length}");
    }
}
