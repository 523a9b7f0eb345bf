//! Two small answers that were written by other means, byte for byte.

use honest_log::model::{hex, Digest, Settings, State};
use honest_log::{Addition, Contents, Log, Question, VrfRule};

const LABEL: &[u8] = b"a";

/// An output that is zero but for its first byte.
fn output(first: u8) -> Digest {
    let mut output = [0; 32];
    output[0] = first;
    output
}

fn addition(version: u32, value: &[u8]) -> Addition {
    let first = 16 * version as u8;
    Addition {
        label: LABEL.to_vec(),
        version,
        contents: Contents {
            value: value.to_vec(),
            opening: std::array::from_fn(|i| first + i as u8),
        },
    }
}

/// Three entries: version 0, nothing, version 1.
fn log() -> Log {
    let outputs = [0x80, 0x40, 0xc0, 0x20].map(output);
    let otherwise = VrfRule::Hashed { seed: 0 };
    let mut log = Log::new(VrfRule::table(LABEL, &[0, 1, 2, 3], &outputs, otherwise));
    log.append(1000, &[addition(0, b"x")]);
    log.append(1001, &[]);
    log.append(1002, &[addition(1, b"")]);
    log
}

fn question(state: State) -> Question {
    Question {
        identifier: (0..16).collect(),
        clock: 1002,
        settings: Settings {
            suite: 1,
            mode: 1,
            signature_key: vec![3],
            vrf_key: Vec::new(),
            max_ahead: 0,
            max_behind: 0,
            monitoring_window: 9,
            maximum_lifetime: Some(8),
        },
        state,
        size: 3,
    }
}

#[test]
fn search() {
    let answer = log().search(&question(State::new(LABEL))).unwrap();
    assert_eq!(answer.expected(), 0);
    let exchange = answer.accepted().unwrap();
    assert_eq!(
        String::from_utf8(exchange.response.text()).unwrap(),
        include_str!("golden/search")
    );
    assert_eq!(
        String::from_utf8(exchange.new_state.text()).unwrap(),
        include_str!("golden/search.state")
    );
    let signed = [
        "000101000103000000000000000000000000000000000000000000000000000901",
        "00000000000000080000000000000003",
        "eda48c0538252b5fd00510901351baa4ef397738fabee7f2475948b85226bfb3",
    ];
    assert_eq!(hex(&exchange.signed_text()), signed.concat());
    let versions: Vec<u32> = exchange.sheet.iter().map(|record| record.0).collect();
    assert_eq!(versions, [0, 1, 2, 3]);
}

#[test]
fn monitor() {
    let log = log();
    let answer = log
        .monitor(&question(log.state(LABEL, 1, &[(0, 0)])))
        .unwrap();
    assert_eq!(answer.expected(), 0);
    let exchange = answer.accepted().unwrap();
    assert_eq!(
        String::from_utf8(exchange.response.text()).unwrap(),
        include_str!("golden/monitor")
    );
    assert_eq!(
        String::from_utf8(exchange.new_state.text()).unwrap(),
        include_str!("golden/monitor.state")
    );
    assert_eq!(exchange.sheet, [(0, output(0x80))]);
}
