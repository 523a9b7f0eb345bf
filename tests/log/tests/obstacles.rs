//! Answers that are written by the rules and must be refused: each number once, and the forged
//! histories (paper 01, Sixteen numbers).

mod common;

use common::{question, replay, varied_log, CONTENTS, LABEL};
use honest_log::ladder::binary_ladder;
use honest_log::limits;
use honest_log::model::{LookupResult, State};
use honest_log::search_tree::frontier;
use honest_log::vrf::outputs_sharing;
use honest_log::{Log, LogEntry, Obstacle, Question, VrfRule};

const HASHED: VrfRule = VrfRule::Hashed { seed: 9 };

/// A log in which entry p adds version p of the label, one time unit apart.
fn steady_log(size: u64) -> Log {
    let mut log = Log::new(HASHED);
    for position in 0..size {
        log.append(100 + position, &[CONTENTS.addition(LABEL, position as u32)]);
    }
    log
}

#[test]
fn lengths_and_configuration() {
    let log = steady_log(20);
    let asked = question(&log, log.state(LABEL, 6, &[(5, 5)]), 20);
    let expected = |asked: Question| log.search(&asked).unwrap().expected();
    assert_eq!(expected(asked.clone()), 0);
    let identifier = vec![1; 15];
    assert_eq!(
        expected(Question {
            identifier,
            ..asked.clone()
        }),
        1
    );
    let mut other = asked.clone();
    other.settings.signature_key = vec![0; limits::SETTINGS];
    assert_eq!(expected(other), 1);
    let mut other = asked.clone();
    other.settings.suite = 2;
    assert_eq!(expected(other), 2);
    let mut other = asked.clone();
    other.settings.mode = 3;
    assert_eq!(expected(other), 2);
}

#[test]
fn states() {
    let log = steady_log(20);
    let expected = |state: State| log.search(&question(&log, state, 20)).unwrap().expected();
    for map in [
        vec![(6, 1)],
        vec![(2, 1), (2, 1)],
        vec![(3, 1), (2, 1)],
        vec![(0, u32::MAX)],
    ] {
        assert_eq!(expected(log.state(LABEL, 6, &map)), 3, "{map:?}");
    }
    let state = log.state(LABEL, 6, &[(0, 3), (5, 0)]);
    assert_eq!(expected(state.clone()), 0, "versions may fall");
    let values = vec![[0; 32]; 3];
    assert_eq!(expected(State { values, ..state }), 3);
    assert_eq!(
        expected(State {
            time: 1,
            ..State::new(LABEL)
        }),
        3
    );
}

#[test]
fn fields() {
    let common = [0x55; 32];
    let ladder = binary_ladder(1);
    let rule = |bits| VrfRule::table(LABEL, &ladder, &outputs_sharing(&common, bits, 4), HASHED);
    for (bits, longest, number) in [(253, 255, 0), (254, 256, 5)] {
        let mut log = Log::new(rule(bits));
        log.append(7, &CONTENTS.additions(LABEL, &[0, 1]));
        let answer = log.search(&question(&log, State::new(LABEL), 1)).unwrap();
        assert_eq!(answer.expected(), number);
        let lookups = &answer.exchange.response.entries[0].lookups;
        assert_eq!(
            lookups.iter().map(|l| l.siblings.len()).max(),
            Some(longest)
        );
        let last = &lookups[3].result;
        assert!(matches!(last, LookupResult::EmptyPlace));
    }
    for (length, number) in [(limits::VALUE, 0), (limits::VALUE + 1, 5)] {
        let mut log = Log::new(HASHED);
        let mut addition = CONTENTS.addition(LABEL, 0);
        addition.contents.value = vec![8; length];
        log.append(7, &[addition]);
        let answer = log.search(&question(&log, State::new(LABEL), 1)).unwrap();
        assert_eq!(answer.expected(), number);
    }
}

#[test]
fn sizes_and_targets() {
    let log = steady_log(20);
    for (size, number) in [(13, 7), (14, 0), (15, 0)] {
        let asked = question(&log, log.state(LABEL, 14, &[]), size);
        assert_eq!(log.search(&asked).unwrap().expected(), number);
        assert_eq!(log.monitor(&asked).unwrap().expected(), number);
    }
    let asked = question(&log, log.state(LABEL, 14, &[(13, 13)]), 20);
    for (target, number) in [
        (u32::MAX, 8),
        (12, 8),
        (13, 13),
        (18, 13),
        (19, 0),
        (20, 13),
    ] {
        let answer = log.search_target(&asked, target).unwrap();
        assert_eq!(answer.expected(), number, "{target}");
    }
    assert_eq!(log.monitor(&asked).unwrap().expected(), 0);
}

#[test]
fn times() {
    let log = steady_log(20);
    let asked = question(&log, log.state(LABEL, 10, &[]), 20);
    let clocks = log.clocks(20, &asked.settings);
    for (clock, number) in [
        (*clocks.start(), 0),
        (*clocks.end(), 0),
        (*clocks.end() + 1, 11),
    ] {
        assert_eq!(
            log.search(&Question {
                clock,
                ..asked.clone()
            })
            .unwrap()
            .expected(),
            number
        );
    }
    let mut other = asked.clone();
    (other.settings.max_ahead, other.clock) = (3, 116);
    assert_eq!(log.monitor(&other).unwrap().expected(), 0);
    other.clock = 115;
    assert_eq!(log.monitor(&other).unwrap().expected(), 11);
    // Shown are 15 and 19, both from the old size on, and the kept time is 109.
    for (position, time, number) in [(15, 120, 11), (15, 119, 0), (15, 109, 0), (15, 108, 11)] {
        let changed = log.with_time(position, time);
        assert_eq!(changed.search(&asked).unwrap().expected(), number, "{time}");
    }
    // From old size 17, entry 15 must not be later than the kept time, which is 116.
    let asked = question(&log, log.state(LABEL, 17, &[]), 20);
    for (time, number) in [(117, 11), (116, 14)] {
        let changed = log.with_time(15, time);
        assert_eq!(changed.search(&asked).unwrap().expected(), number, "{time}");
    }
}

#[test]
fn paths_and_ladders() {
    let log = steady_log(20);
    let asked = question(&log, log.state(LABEL, 10, &[(8, 5), (9, 9)]), 20);
    assert_eq!(frontier(20), [15, 19]);
    let forged = log.with_prefix_root(15, [3; 32]);
    assert_eq!(forged.search(&asked).unwrap().expected(), 12);
    assert_eq!(forged.monitor(&asked).unwrap().expected(), 12);
    let forged = log.with_prefix_root(19, [3; 32]);
    assert_eq!(forged.search(&asked).unwrap().expected(), 12);
    assert_eq!(
        forged.monitor(&asked).unwrap().expected(),
        0,
        "entry 19 carries no lookups"
    );
    let mut other = log.clone();
    other.set_contents(&honest_log::Addition {
        version: 3,
        ..CONTENTS.addition(LABEL, 300)
    });
    assert_eq!(other.search(&asked).unwrap().expected(), 12);
    assert_eq!(other.monitor(&asked).unwrap().expected(), 12);
    let output = log.output(LABEL, 3);
    let tree = log.entry(15).prefix_tree.without(&output);
    let missing = log.with_prefix_tree(15, tree);
    assert_eq!(
        missing.search(&asked).unwrap().expected(),
        0,
        "an early end"
    );
    assert_eq!(missing.monitor(&asked).unwrap().expected(), 13);
    let high = log.output(LABEL, 20);
    let tree = log.entry(15).prefix_tree.with(&[(high, [1; 32])]);
    let above = log.with_prefix_tree(15, tree);
    let answer = above.search(&asked).unwrap();
    assert_eq!(
        answer.expected(),
        0,
        "the ladder of 19 ends before 20 at entry 15"
    );
    let tree = log
        .entry(15)
        .prefix_tree
        .with(&[(log.output(LABEL, 31), [1; 32])]);
    assert_eq!(
        log.with_prefix_tree(15, tree)
            .search(&asked)
            .unwrap()
            .expected(),
        13
    );
    let asked = question(&log, log.state(LABEL, 10, &[(8, 16)]), 20);
    assert_eq!(
        log.monitor(&asked).unwrap().expected(),
        13,
        "version 16 came after entry 15"
    );
}

#[test]
fn full_maps() {
    let mut log = Log::new(HASHED);
    log.append_run(50, &[CONTENTS.addition(LABEL, 0)], 200);
    let map: Vec<(u64, u32)> = (0..48).map(|position| (position, 0)).collect();
    for (size, number) in [(128, 16), (192, 16), (48, 0)] {
        let asked = question(&log, log.state(LABEL, 48, &map), size);
        let answer = log.search(&asked).unwrap();
        assert_eq!(answer.expected(), number);
        assert_eq!(replay::root(&answer.exchange), answer.exchange.root);
        assert_eq!(
            answer.exchange.new_state.pairs.len(),
            if number == 16 { 49 } else { 48 }
        );
        assert_eq!(log.monitor(&asked).unwrap().expected(), 0);
    }
}

/// The number that a changed or forked log must meet, from all sizes and old sizes.
#[test]
fn forged_histories() {
    let log = varied_log(12, 24, HASHED);
    let mut seen = [0; 17];
    for position in 0..24 {
        let mut tree = log.entry(position).prefix_tree.clone();
        tree = tree.with(&[([9; 32], [9; 32])]);
        let forged = log.with_prefix_tree(position, tree);
        let mut fork = log.truncated(position);
        for later in position..24 {
            fork.append_entries(forged.entry(later).clone(), 1);
        }
        assert_eq!(fork.root(24), forged.root(24));
        for size in 1..=24 {
            for old_size in 0..=size {
                let asked = question(&log, log.state(LABEL, old_size, &[]), size);
                let number = forged.monitor(&asked).unwrap().expected();
                seen[number as usize] += 1;
                if number == 0 {
                    assert!(position >= old_size);
                }
                if number == 15 {
                    let exchange = forged.monitor(&asked).unwrap().exchange;
                    assert_ne!(replay::root(&exchange), exchange.root);
                }
                assert_eq!(number == 14 || number == 15, position < old_size);
            }
        }
    }
    assert!(
        seen[0] > 100 && seen[14] > 100 && seen[15] > 100,
        "{seen:?}"
    );
}

#[test]
fn forks_after_the_old_size_pass() {
    let log = steady_log(20);
    let mut fork = log.truncated(12);
    fork.append(200, &[CONTENTS.addition(LABEL, 12)]);
    fork.append_entries(LogEntry::new(300, fork.newest_prefix_tree()), 5);
    // Shown are 15 and 17, of times after every kept one.
    let (late, shown, hidden) = (Obstacle::Time, Obstacle::FullSubtree, Obstacle::Root);
    for (old_size, obstacles) in [
        (11, vec![]),
        (12, vec![]),
        (13, vec![hidden]),
        (16, vec![late, shown]),
        (17, vec![late, shown, hidden]),
    ] {
        let asked = question(&fork, log.state(LABEL, old_size, &[]), 18);
        assert_eq!(fork.search(&asked).unwrap().obstacles, obstacles);
    }
}
