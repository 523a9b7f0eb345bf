//! Answers from a few hundred bytes to more than the largest response, and thousands of them.

mod common;

use common::{question, varied_log, CONTENTS, LABEL};
use honest_log::ladder::{binary_ladder, monitoring_ladder};
use honest_log::limits;
use honest_log::model::State;
use honest_log::vrf::outputs_sharing;
use honest_log::{Log, Random, VrfRule};
use std::time::Instant;

/// A log whose trees hold the ladder of a target up to the target, all leaves at a depth.
fn deep_log(target: u32, depth: usize) -> Log {
    let ladder = binary_ladder(target);
    let width = ladder.len().next_power_of_two().ilog2() as usize;
    let outputs = outputs_sharing(&[0x3c; 32], depth - width, ladder.len());
    let otherwise = VrfRule::Hashed { seed: 0 };
    let mut log = Log::new(VrfRule::table(LABEL, &ladder, &outputs, otherwise));
    log.append_run(
        1_000,
        &CONTENTS.additions(LABEL, &monitoring_ladder(target)),
        1 << 20,
    );
    log
}

#[test]
fn from_small_to_too_large() {
    let mut log = Log::new(VrfRule::Hashed { seed: 0 });
    log.append(5, &CONTENTS.additions(LABEL, &[0]));
    let smallest = log.monitor(&question(&log, State::new(LABEL), 1)).unwrap();
    assert!(smallest.exchange.response.text().len() < 200);
    let small = log.search(&question(&log, State::new(LABEL), 1)).unwrap();
    assert!((200..500).contains(&small.exchange.response.text().len()));
    let target = limits::GREATEST_VERSION;
    for (depth, size, number) in [
        (8, 1, 0),
        (30, 1, 0),
        (120, 2, 0),
        (254, 1, 0),
        (255, 1, 1),
        (20, 63, 0),
        (255, 63, 1),
    ] {
        let log = deep_log(target, depth);
        let answer = log
            .search(&question(&log, State::new(LABEL), size))
            .unwrap();
        assert_eq!(answer.expected(), number, "depth {depth} size {size}");
        let mut lookups = answer
            .exchange
            .response
            .entries
            .iter()
            .flat_map(|e| &e.lookups);
        assert!(lookups.any(|lookup| lookup.siblings.len() == depth));
        let longest = answer.exchange.response.text().len();
        assert_eq!(longest > limits::RESPONSE, number == 1);
    }
}

#[test]
fn thousands_in_seconds() {
    let start = Instant::now();
    let log = varied_log(3, 3_000, VrfRule::Shared { seed: 3, bits: 12 });
    let mut random = Random::new(3);
    let mut bytes = 0;
    for _ in 0..3_000 {
        let size = random.between(1, log.size());
        let old_size = random.between(0, size);
        let pairs: Vec<(u64, u32)> = (0..random.below(4).min(old_size))
            .filter_map(|p| Some((p, log.greatest_version(LABEL, p + 1)?)))
            .collect();
        let asked = question(&log, log.state(LABEL, old_size, &pairs), size);
        let answers = [log.search(&asked), log.monitor(&asked)];
        for answer in answers.into_iter().flatten() {
            bytes += answer.exchange.response.text().len();
        }
    }
    println!("{bytes} bytes in {:?}", start.elapsed());
    assert!(bytes > 10_000_000);
}
