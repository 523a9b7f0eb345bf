//! Logs and questions that several tests use.
#![allow(dead_code)]

pub mod replay;

use honest_log::model::{Settings, State};
use honest_log::{ContentRule, Log, Question, Random, VrfRule};

pub const LABEL: &[u8] = b"turbine";
pub const START: u64 = 1_700_000_000_000;
pub const CONTENTS: ContentRule = ContentRule {
    seed: 5,
    shortest: 0,
    longest: 40,
};

pub fn settings() -> Settings {
    Settings {
        suite: 1,
        mode: 1,
        signature_key: vec![4; 65],
        vrf_key: vec![2; 33],
        max_ahead: 1_000,
        max_behind: 2_000,
        monitoring_window: 86_400_000,
        maximum_lifetime: None,
    }
}

/// A question at the time of the last entry.
pub fn question(log: &Log, state: State, size: u64) -> Question {
    Question::at_last_entry(log, settings(), state, size)
}

/// A log in which entries add a version of the label, of others, several, or nothing.
pub fn varied_log(seed: u64, size: u64, vrf: VrfRule) -> Log {
    let mut random = Random::new(seed);
    let mut log = Log::new(vrf);
    let mut time = START;
    let labels = [LABEL, b"", b"other", &[0xff; 255]];
    for _ in 0..size {
        time += random.below(3);
        let mut additions = Vec::new();
        for label in labels {
            let next = log.greatest_version(label, log.size()).map_or(0, |v| v + 1);
            let count = random.below(4).saturating_sub(1) as u32;
            let versions: Vec<u32> = (next..next + count).collect();
            additions.extend(CONTENTS.additions(label, &versions));
        }
        log.append(time, &additions);
    }
    log
}
