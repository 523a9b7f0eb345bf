//! Honest answers at every size from every old size, and chains of them.

mod common;

use common::{question, replay, varied_log, LABEL};
use honest_log::ladder::{binary_ladder, monitoring_ladder};
use honest_log::model::{Exchange, LookupResult, State};
use honest_log::search_tree::{frontier, right_ancestors};
use honest_log::{Log, NoAnswer, Random, VrfRule};
use std::collections::{BTreeMap, BTreeSet};

/// What holds of every answer that must be accepted.
fn check(log: &Log, exchange: &Exchange) {
    assert_eq!(replay::root(exchange), exchange.root);
    assert!(replay::lookups_lead(exchange));
    assert!(exchange.sheet.is_sorted_by(|a, b| a.0 < b.0));
    let size = exchange.response.size;
    let new = &exchange.new_state;
    assert_eq!(*new, log.truncated(size).state(LABEL, size, &new.pairs));
}

/// The position of the entry that added a version.
fn added_at(log: &Log, version: u32) -> u64 {
    (0..log.size())
        .find(|p| log.has_version(LABEL, version, *p))
        .unwrap()
}

fn check_search(log: &Log, exchange: &Exchange) {
    check(log, exchange);
    let response = &exchange.response;
    let target = response.target.as_ref().unwrap().version;
    let steps: Vec<u32> = response.steps.iter().map(|step| step.version).collect();
    assert_eq!(steps, binary_ladder(target));
    let shown: Vec<u64> = response
        .entries
        .iter()
        .map(|entry| entry.position)
        .collect();
    assert_eq!(shown, frontier(response.size));
    let added = added_at(log, target);
    for entry in &response.entries {
        let last = entry.lookups.last().unwrap();
        let complete =
            entry.lookups.len() == steps.len() && last_is_right(target, last.version, &last.result);
        assert_eq!(complete, entry.position >= added);
        let versions: Vec<u32> = entry.lookups.iter().map(|lookup| lookup.version).collect();
        assert_eq!(versions, steps[..versions.len()]);
    }
    let mut map: BTreeMap<u64, u32> = exchange.state.pairs.iter().copied().collect();
    map.insert(shown.into_iter().find(|p| *p >= added).unwrap(), target);
    assert!(exchange.new_state.pairs.iter().copied().eq(map));
}

fn last_is_right(target: u32, version: u32, result: &LookupResult) -> bool {
    (version <= target) == (*result == LookupResult::Inclusion)
}

fn check_monitoring(log: &Log, exchange: &Exchange) {
    check(log, exchange);
    let (response, state) = (&exchange.response, &exchange.state);
    let mut shown: BTreeSet<u64> = frontier(response.size).into_iter().collect();
    for (position, _) in &state.pairs {
        shown.extend(right_ancestors(*position, response.size));
    }
    assert!(response
        .entries
        .iter()
        .map(|entry| entry.position)
        .eq(shown));
    let mut versions = BTreeSet::new();
    for entry in &response.entries {
        let on_path = |p: &u64| right_ancestors(*p, response.size).contains(&entry.position);
        let below = state
            .pairs
            .iter()
            .filter(|(p, _)| on_path(p))
            .map(|pair| pair.1);
        let ladder = below.max().map_or(Vec::new(), monitoring_ladder);
        assert!(entry
            .lookups
            .iter()
            .map(|lookup| lookup.version)
            .eq(ladder.iter().copied()));
        assert!(entry
            .lookups
            .iter()
            .all(|l| l.result == LookupResult::Inclusion));
        versions.extend(ladder);
    }
    assert!(response
        .steps
        .iter()
        .map(|step| step.version)
        .eq(versions.iter().copied()));
    assert!(response.steps.iter().all(|step| step.commitment.is_some()));
    assert!(exchange.sheet.iter().map(|record| record.0).eq(versions));
    let mut map = BTreeMap::new();
    for (position, version) in &state.pairs {
        let end = frontier(response.size)
            .into_iter()
            .find(|f| f >= position)
            .unwrap();
        map.entry(end)
            .and_modify(|v| *v = *version.max(v))
            .or_insert(*version);
    }
    assert!(exchange.new_state.pairs.iter().copied().eq(map));
}

/// A map that honest answers could have left: positions with versions that are in their trees.
fn honest_map(random: &mut Random, log: &Log, size: u64) -> Vec<(u64, u32)> {
    let mut map = BTreeMap::new();
    for _ in 0..random.below(6).min(size) {
        let position = random.below(size);
        if let Some(greatest) = log.greatest_version(LABEL, position + 1) {
            map.insert(position, random.between(0, greatest.into()) as u32);
        }
    }
    map.into_iter().collect()
}

#[test]
fn from_every_old_size() {
    let rules = [
        VrfRule::Hashed { seed: 1 },
        VrfRule::Shared { seed: 1, bits: 30 },
    ];
    let mut random = Random::new(1);
    for (seed, vrf) in rules.into_iter().enumerate() {
        let log = varied_log(seed as u64, 35, vrf);
        for size in 1..=35 {
            for old_size in 0..=size {
                let map = honest_map(&mut random, &log, old_size);
                let asked = question(&log, log.state(LABEL, old_size, &map), size);
                match log.search(&asked) {
                    Ok(answer) => check_search(&log, &answer.accepted().unwrap()),
                    Err(why) => assert_eq!(why, NoAnswer::NoVersion),
                }
                check_monitoring(&log, &log.monitor(&asked).unwrap().accepted().unwrap());
            }
        }
    }
}

#[test]
fn chains() {
    for seed in 0..20 {
        let mut random = Random::new(seed);
        let log = varied_log(seed, 150, VrfRule::Shared { seed, bits: 9 });
        let mut state = State::new(LABEL);
        while state.size < log.size() {
            let size = (state.size + random.below(9)).clamp(1, log.size());
            let asked = question(&log, state.clone(), size);
            let monitors = random.one_in(3) || log.greatest_version(LABEL, size).is_none();
            let answer = if monitors {
                log.monitor(&asked)
            } else {
                log.search(&asked)
            };
            let exchange = answer.unwrap().accepted().unwrap();
            match monitors {
                true => check_monitoring(&log, &exchange),
                false => check_search(&log, &exchange),
            }
            state = exchange.new_state;
        }
    }
}

#[test]
fn no_answer() {
    let log = varied_log(1, 3, VrfRule::Hashed { seed: 1 });
    let mut asked = question(&log, State::new(b"nobody"), 3);
    assert_eq!(log.search(&asked).unwrap_err(), NoAnswer::NoVersion);
    assert_eq!(log.monitor(&asked).unwrap().expected(), 0);
    for size in [0, 4] {
        asked.size = size;
        assert_eq!(log.search(&asked).unwrap_err(), NoAnswer::NoEntries);
        assert_eq!(
            log.search_target(&asked, 0).unwrap_err(),
            NoAnswer::NoEntries
        );
        assert_eq!(log.monitor(&asked).unwrap_err(), NoAnswer::NoEntries);
    }
}
