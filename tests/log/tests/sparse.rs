//! Logs written as runs of equal entries: the same as entry by entry where both can be had, and up
//! to the largest sizes and versions (paper 01, What a call is given).

mod common;

use common::{question, replay, settings, CONTENTS, LABEL};
use honest_log::ladder::{binary_ladder, monitoring_ladder};
use honest_log::limits;
use honest_log::model::State;
use honest_log::search_tree::frontier;
use honest_log::vrf::outputs_sharing;
use honest_log::{Log, Question, Random, VrfRule};

const LAST_VERSION: u32 = limits::GREATEST_VERSION;
const LARGEST: u64 = 1 << 40;

/// The same log in runs and entry by entry.
fn both_ways(seed: u64) -> (Log, Log) {
    let mut random = Random::new(seed);
    let vrf = VrfRule::Shared { seed, bits: 5 };
    let (mut runs, mut single) = (Log::new(vrf.clone()), Log::new(vrf));
    let mut next = 0;
    for time in 0..random.between(1, 8) {
        let count = random.between(1, 40);
        let versions: Vec<u32> = (next..next + random.below(4) as u32).collect();
        next += versions.len() as u32;
        let additions = CONTENTS.additions(LABEL, &versions);
        runs.append_run(time, &additions, count);
        single.append(time, &additions);
        for _ in 1..count {
            single.append(time, &[]);
        }
    }
    (runs, single)
}

#[test]
fn runs_answer_as_their_entries() {
    for seed in 0..60 {
        let (runs, single) = both_ways(seed);
        assert_eq!(runs.size(), single.size());
        let mut random = Random::new(seed);
        for _ in 0..20 {
            let size = random.between(1, runs.size());
            let old_size = random.between(0, size);
            let map: Vec<(u64, u32)> = (0..old_size)
                .filter(|_| random.one_in(10))
                .filter_map(|p| Some((p, runs.greatest_version(LABEL, p + 1)?)))
                .collect();
            let state = runs.state(LABEL, old_size, &map);
            assert_eq!(state, single.state(LABEL, old_size, &map));
            let asked = question(&runs, state, size);
            let pairs = [
                (runs.search(&asked), single.search(&asked)),
                (runs.monitor(&asked), single.monitor(&asked)),
            ];
            for (left, right) in pairs {
                assert_eq!(left.as_ref().err(), right.as_ref().err());
                let (Ok(left), Ok(right)) = (left, right) else {
                    continue;
                };
                assert_eq!(left.obstacles, right.obstacles);
                assert_eq!(left.exchange.response, right.exchange.response);
                assert_eq!(left.exchange.root, right.exchange.root);
                assert_eq!(left.exchange.new_state, right.exchange.new_state);
                assert_eq!(replay::root(&left.exchange), left.exchange.root);
            }
        }
    }
}

/// A log of the largest size in few runs, times from 0 to the last there is; its trees hold only
/// what the ladders of the two greatest versions look up.
fn huge_log(vrf: VrfRule) -> Log {
    let mut log = Log::new(vrf);
    log.append_run(0, &[], 3);
    let early = CONTENTS.additions(LABEL, &monitoring_ladder(1 << 20));
    log.append_run(1 << 20, &early, (1 << 33) + 12_345);
    let late = CONTENTS.additions(LABEL, &monitoring_ladder(LAST_VERSION));
    log.append_run(1 << 50, &late, 1 << 38);
    log.append_run(u64::MAX - 5, &[], LARGEST - 1 - log.size());
    log.append(u64::MAX, &[]);
    assert_eq!(log.size(), LARGEST);
    log
}

#[test]
fn huge() {
    let log = huge_log(VrfRule::Hashed { seed: 7 });
    let mut state = State::new(LABEL);
    let (added_early, added_late) = (3, 3 + (1 << 33) + 12_345);
    for size in [
        1,
        3,
        4,
        1000,
        1 << 33,
        added_late,
        added_late + 1,
        (1 << 38) - (1 << 18),
        (1 << 39) + 77,
        LARGEST - (1 << 20),
        LARGEST,
        LARGEST,
    ] {
        let asked = question(&log, state.clone(), size);
        let exchange = log.monitor(&asked).unwrap().accepted().unwrap();
        assert_eq!(replay::root(&exchange), exchange.root);
        assert!(replay::lookups_lead(&exchange));
        let on_frontier = |pair: &(u64, u32)| frontier(size).contains(&pair.0);
        assert!(exchange.new_state.pairs.iter().all(on_frontier));
        state = exchange.new_state;
        if size <= added_early {
            continue;
        }
        let answer = log.search(&question(&log, state.clone(), size)).unwrap();
        let exchange = answer.accepted().unwrap();
        let target = exchange.response.target.as_ref().unwrap().version;
        assert_eq!(
            target,
            if size > added_late {
                LAST_VERSION
            } else {
                1 << 20
            }
        );
        assert_eq!(replay::root(&exchange), exchange.root);
        assert!(replay::lookups_lead(&exchange));
        state = exchange.new_state;
        assert_eq!(state.time, log.entry(size - 1).time);
        assert_eq!(state.values.len() as u32, size.count_ones());
    }
    assert_eq!(state.pairs, [(LARGEST - 1, LAST_VERSION)]);
}

#[test]
fn longest_ladder_in_most_entries() {
    let ladder = binary_ladder(LAST_VERSION);
    let outputs = outputs_sharing(&[0; 32], 0, ladder.len());
    let otherwise = VrfRule::Hashed { seed: 7 };
    let log = huge_log(VrfRule::table(LABEL, &ladder, &outputs, otherwise));
    for (size, number) in [(LARGEST - 16, 0), (LARGEST - 1, 1)] {
        let map = [(10, 1 << 20), (size - 1, LAST_VERSION)];
        let asked = question(&log, log.state(LABEL, size, &map), size);
        let answer = log.search(&asked).unwrap();
        assert_eq!(answer.expected(), number, "the largest size is too long");
        let exchange = answer.exchange;
        assert_eq!(replay::root(&exchange), exchange.root);
        assert!(replay::lookups_lead(&exchange));
        assert_eq!(exchange.response.entries.len() as u32, size.count_ones());
        assert_eq!(exchange.response.steps.len(), 64);
        assert_eq!(exchange.sheet[63].0, u32::MAX);
    }
}

#[test]
fn beyond_the_largest() {
    let mut log = huge_log(VrfRule::Hashed { seed: 7 });
    log.append(u64::MAX, &[]);
    let asked = question(&log, log.state(LABEL, LARGEST, &[]), LARGEST + 1);
    assert_eq!(log.search(&asked).unwrap().expected(), 7);
    assert_eq!(log.monitor(&asked).unwrap().expected(), 7);
    assert_eq!(
        log.monitor(&Question {
            size: LARGEST,
            ..asked
        })
        .unwrap()
        .expected(),
        0
    );
}

#[test]
fn clocks_at_the_ends_of_time() {
    let log = huge_log(VrfRule::Hashed { seed: 7 });
    let wide = honest_log::model::Settings {
        max_ahead: u64::MAX,
        max_behind: u64::MAX,
        ..settings()
    };
    for size in [1, 4, LARGEST] {
        assert_eq!(log.clocks(size, &wide), 0..=u64::MAX);
        for clock in [0, 1, u64::MAX] {
            let asked = question(&log, State::new(LABEL), size);
            let settings = wide.clone();
            let asked = Question {
                clock,
                settings,
                ..asked
            };
            assert_eq!(log.monitor(&asked).unwrap().expected(), 0);
        }
    }
    assert_eq!(log.clocks(1, &settings()), 0..=2_000);
    assert_eq!(
        log.clocks(LARGEST, &settings()),
        u64::MAX - 1_000..=u64::MAX
    );
}
