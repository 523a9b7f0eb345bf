//! The program's request, its limits and its lines.

use super::*;
use crate::example::{first_search, hex, monitoring, second_search};

fn line(files: &Files) -> String {
    String::from_utf8(judge(files).line).unwrap()
}

/// The line for the second search with another request.
fn asked(request: &str) -> String {
    let mut files = second_search().files();
    files.request = Some(request.as_bytes().to_vec());
    line(&files)
}

const IDENTIFIER: &str = "000102030405060708090a0b0c0d0e0f";

#[test]
fn lines() {
    assert_eq!(line(&first_search().files()), "yes\t0\t1\t1\n");
    assert_eq!(line(&monitoring().files()), "yes\t-\t3\t1\n");
    assert_eq!(line(&second_search().files()), "yes\t1\t3\t2\n");
    let foreign = asked("search\t000102030405060708090a0b0c0d0e0e\t300\n");
    assert_eq!(foreign, "no\t6\n");
}

#[test]
fn outcomes() {
    let example = second_search();
    let outcome = judge(&example.files());
    assert_eq!(outcome.value.as_deref(), Some(&b"second"[..]));
    assert_eq!(outcome.state, Some(example.new_state));
    let outcome = judge(&monitoring().files());
    assert_eq!(outcome.value, None);
    assert_eq!(outcome.state, Some(monitoring().new_state));
    let refused = judge(&second_search().with("head\t3", "head\t0").files());
    assert_eq!(refused.line, b"no\t7\n");
    assert_eq!((refused.state, refused.value), (None, None));
}

#[test]
fn requests() {
    assert_eq!(
        asked(&format!("search\t{IDENTIFIER}\t300\n")),
        "yes\t1\t3\t2\n"
    );
    assert_eq!(asked(&format!("monitor\t{IDENTIFIER}\t300\n")), "no\t6\n");
    assert_eq!(asked(&format!("search\t{IDENTIFIER}\t0\n")), "no\t11\n");
    assert_eq!(
        asked(&format!("search\t{IDENTIFIER}\t18446744073709551615\n")),
        "no\t11\n"
    );
    for broken in [
        "".to_string(),
        "\n".to_string(),
        format!("search\t{IDENTIFIER}\t300"),
        format!("search\t{IDENTIFIER}\t300\n\n"),
        format!("search\t{IDENTIFIER}\t300\nx"),
        format!("search\t{IDENTIFIER}\t300\r\n"),
        format!("search\t{IDENTIFIER}\t300\t\n"),
        format!("search\t{IDENTIFIER}\t\n"),
        format!("search\t{IDENTIFIER}\n"),
        format!("search\t{IDENTIFIER}\t0300\n"),
        format!("search\t{IDENTIFIER}\t+300\n"),
        format!("search\t{IDENTIFIER}\t18446744073709551616\n"),
        format!("search {IDENTIFIER} 300\n"),
        format!("fixed\t{IDENTIFIER}\t300\n"),
        format!("Search\t{IDENTIFIER}\t300\n"),
        format!("\t{IDENTIFIER}\t300\n"),
        format!("search\t{}\t300\n", IDENTIFIER.to_uppercase()),
        format!("search\t{IDENTIFIER}0\t300\n"),
        format!("search\t{}\t300\n", &IDENTIFIER[1..]),
        format!("search\t{IDENTIFIER}-\t300\n"),
        "search\t\t300\n".to_string(),
    ] {
        assert_eq!(asked(&broken), "no\t6\n", "{broken:?}");
    }
}

// Whole bytes of another length are a matter of length, but only in a line that is sound otherwise.
#[test]
fn identifier_lengths() {
    for identifier in ["-", "00", &IDENTIFIER[2..], &format!("{IDENTIFIER}00")] {
        assert_eq!(asked(&format!("search\t{identifier}\t300\n")), "no\t1\n");
        assert_eq!(asked(&format!("monitor\t{identifier}\t300\n")), "no\t1\n");
        assert_eq!(asked(&format!("fixed\t{identifier}\t300\n")), "no\t6\n");
        assert_eq!(asked(&format!("search\t{identifier}\t300")), "no\t6\n");
        assert_eq!(asked(&format!("search\t{identifier}\t00\n")), "no\t6\n");
        assert_eq!(asked(&format!("search\t{identifier}\t300\n\n")), "no\t6\n");
    }
}

#[test]
fn request_length() {
    let of_length = |length: usize| {
        let digits = length - "search\t\t300\n".len();
        asked(&format!("search\t{}\t300\n", "0".repeat(digits)))
    };
    assert_eq!(of_length(127), "no\t6\n");
    assert_eq!(of_length(128), "no\t1\n");
    assert_eq!(asked(&"x".repeat(128)), "no\t6\n");
    assert_eq!(asked(&"x".repeat(129)), "no\t1\n");
}

// A broken request is only the answer if nothing before it fails.
#[test]
fn broken_request_comes_sixth() {
    let with_broken_request = |change: fn(&mut Files)| {
        let mut files = second_search().files();
        files.request = Some(b"fetch\n".to_vec());
        change(&mut files);
        line(&files)
    };
    assert_eq!(with_broken_request(|_| {}), "no\t6\n");
    assert_eq!(with_broken_request(|f| f.sheet = None), "no\t1\n");
    assert_eq!(
        with_broken_request(|f| f.signed = Some(vec![0; 2089])),
        "no\t1\n"
    );
    assert_eq!(
        with_broken_request(|f| f.settings = Some(vec![])),
        "no\t2\n"
    );
    assert_eq!(with_broken_request(|f| f.state = Some(vec![])), "no\t3\n");
    assert_eq!(with_broken_request(|f| f.sheet = Some(vec![0])), "no\t4\n");
    assert_eq!(
        with_broken_request(|f| f.response = Some(vec![])),
        "no\t5\n"
    );
    assert_eq!(with_broken_request(|f| f.signed = Some(vec![])), "no\t6\n");
}

#[test]
fn missing_files() {
    let without = |remove: fn(&mut Files)| {
        let mut files = second_search().files();
        remove(&mut files);
        line(&files)
    };
    assert_eq!(without(|files| files.request = None), "no\t1\n");
    assert_eq!(without(|files| files.response = None), "no\t1\n");
    assert_eq!(without(|files| files.settings = None), "no\t1\n");
    assert_eq!(without(|files| files.state = None), "no\t1\n");
    assert_eq!(without(|files| files.sheet = None), "no\t1\n");
    assert_eq!(without(|files| files.signed = None), "no\t1\n");
}

#[test]
fn long_files() {
    let with_length = |set: fn(&mut Files, Vec<u8>), length: usize| {
        let mut files = second_search().files();
        set(&mut files, vec![0; length]);
        line(&files)
    };
    assert_eq!(
        with_length(|f, bytes| f.response = Some(bytes), 65_536),
        "no\t5\n"
    );
    assert_eq!(
        with_length(|f, bytes| f.response = Some(bytes), 65_537),
        "no\t1\n"
    );
    assert_eq!(
        with_length(|f, bytes| f.settings = Some(bytes), 2_048),
        "no\t2\n"
    );
    assert_eq!(
        with_length(|f, bytes| f.settings = Some(bytes), 2_049),
        "no\t1\n"
    );
    assert_eq!(
        with_length(|f, bytes| f.state = Some(bytes), 8_192),
        "no\t3\n"
    );
    assert_eq!(
        with_length(|f, bytes| f.state = Some(bytes), 8_193),
        "no\t1\n"
    );
    assert_eq!(
        with_length(|f, bytes| f.sheet = Some(bytes), 36_864),
        "no\t4\n"
    );
    assert_eq!(
        with_length(|f, bytes| f.sheet = Some(bytes), 36_865),
        "no\t1\n"
    );
    assert_eq!(
        with_length(|f, bytes| f.signed = Some(bytes), 2_088),
        "no\t15\n"
    );
    assert_eq!(
        with_length(|f, bytes| f.signed = Some(bytes), 2_089),
        "no\t1\n"
    );
}

// The clock of the request is the one that counts.
#[test]
fn clock() {
    let mut example = second_search();
    example.clock = 1301;
    assert_eq!(line(&example.files()), "no\t11\n");
    assert_eq!(hex(&example.identifier), IDENTIFIER);
}
