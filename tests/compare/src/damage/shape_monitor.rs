//! Number 9 where only monitoring has it: which entries carry lookups, and of which pair's ladder
//! (paper 01, Monitoring).

use super::{Damage, Damages};
use crate::base::{question, Base};
use crate::case::Case;
use crate::honest::extremes::with_greatest;
use crate::limits;
use honest_log::ladder::{binary_ladder, monitoring_ladder};
use honest_log::model::{Entry, Exchange, Kind, Step};
use honest_log::VrfRule;
use std::collections::BTreeSet;

pub fn damages(base: &Base) -> Vec<Damage> {
    if base.exchange.kind != Kind::Monitor {
        return Vec::new();
    }
    let mut list = steps(base);
    list.extend(true_steps(base));
    for at in 0..base.exchange.response.entries.len() {
        list.extend(lookups(base, at));
        list.extend(other_ladders(base, at));
    }
    list.extend(unmoved(base));
    list
}

/// Steps without commitments, or for versions that no entry looks up.
fn steps(base: &Base) -> Vec<Damage> {
    let mut list = Vec::new();
    let used: Vec<u32> = base
        .exchange
        .response
        .steps
        .iter()
        .map(|step| step.version)
        .collect();
    for (at, version) in used.iter().enumerate() {
        list.on_response(format!("no commitment at {version}"), move |response| {
            response.steps[at].commitment = None;
        });
    }
    for version in (0..8).filter(|version| !used.contains(version)) {
        list.on_response(
            format!("a step for {version} that no entry looks up"),
            move |response| {
                let place = response
                    .steps
                    .partition_point(|step| step.version < version);
                response.steps.insert(
                    place,
                    Step {
                        version,
                        commitment: Some([0x55; 32]),
                    },
                );
            },
        );
    }
    if used.len() > 1 {
        list.on_response("steps falling", |response| response.steps.reverse());
    }
    list
}

/// Puts a step with the log's commitment at its place, and its version's output into the sheet.
fn true_step(base: &Base, version: u32) -> impl Fn(&mut Exchange) + Clone + 'static {
    let step = Step {
        version,
        commitment: Some(base.log.commitment(base.label(), version)),
    };
    let record = (version, base.log.output(base.label(), version));
    move |exchange| {
        let steps = &mut exchange.response.steps;
        let place = steps.partition_point(|step| step.version < version);
        steps.insert(place, step.clone());
        exchange.sheet.push(record);
        exchange.sheet.sort();
    }
}

/// True steps for versions of a dominated pair's ladder, and for 2^32 - 1, which no ladder up to a
/// version has; also looked up at the last entry.
fn true_steps(base: &Base) -> Vec<Damage> {
    let pairs = base.exchange.state.pairs.iter();
    let ladders = pairs.flat_map(|pair| monitoring_ladder(pair.1));
    let mut versions: BTreeSet<u32> = ladders.chain([u32::MAX]).collect();
    for step in &base.exchange.response.steps {
        versions.remove(&step.version);
    }
    let last = base.exchange.response.size - 1;
    let mut list = Vec::new();
    for version in versions {
        let add = true_step(base, version);
        let name = format!("a true step for {version} that no entry looks up");
        list.on_exchange(9, name, add.clone());
        let lookup = base.lookup(last, version);
        let name = format!("a true step for {version} and a lookup at the last entry");
        list.on_exchange(9, name, move |exchange| {
            add(exchange);
            if let Some(entry) = exchange.response.entries.last_mut() {
                entry.lookups.push(lookup.clone());
            }
        });
    }
    list
}

/// Lookups where none belong, and one more or fewer where some do.
fn lookups(base: &Base, at: usize) -> Vec<Damage> {
    let entry = &base.exchange.response.entries[at];
    let position = entry.position;
    let more = base.lookup(position, 0);
    let mut list = Vec::new();
    list.on_response(
        format!("a lookup of 0 more at {position}"),
        move |response| {
            response.entries[at].lookups.push(more.clone());
        },
    );
    if !entry.lookups.is_empty() {
        list.on_response(
            format!("last lookup at {position} left out"),
            move |response| {
                response.entries[at].lookups.pop();
            },
        );
    }
    if entry.lookups.len() > 1 {
        list.on_response(format!("lookups at {position} falling"), move |response| {
            response.entries[at].lookups.reverse();
        });
    }
    list
}

/// The entry with a ladder of another version: of any pair, of one more or less, or with the
/// versions above.
fn other_ladders(base: &Base, at: usize) -> Vec<Damage> {
    let entry = &base.exchange.response.entries[at];
    let right: Vec<u32> = entry.lookups.iter().map(|lookup| lookup.version).collect();
    let pairs = base.exchange.state.pairs.iter();
    let mut ladders: Vec<Vec<u32>> = pairs.map(|pair| monitoring_ladder(pair.1)).collect();
    if let Some(version) = right.iter().max() {
        ladders.push(monitoring_ladder((version + 1).min(limits::VERSION)));
        ladders.push(monitoring_ladder(version.saturating_sub(1)));
        ladders.push(binary_ladder(*version));
    }
    ladders.sort();
    ladders.dedup();
    ladders.retain(|ladder| *ladder != right);
    let mut list = Vec::new();
    for ladder in ladders {
        let other = with_lookups(base, entry, &ladder);
        let name = format!("lookups {ladder:?} at {}", entry.position);
        list.on_response(name, move |response| response.entries[at] = other.clone());
    }
    list
}

fn with_lookups(base: &Base, entry: &Entry, versions: &[u32]) -> Entry {
    let mut other = entry.clone();
    other.lookups = versions
        .iter()
        .map(|version| base.lookup(entry.position, *version))
        .collect();
    other
}

/// The entry a pair stands on with the pair's ladder, as if it were on its own right path.
fn unmoved(base: &Base) -> Vec<Damage> {
    let mut list = Vec::new();
    let entries = &base.exchange.response.entries;
    for (position, version) in base.exchange.state.pairs.iter().copied() {
        let ladder = monitoring_ladder(version);
        let name = format!("a pair's own entry {position} looked up");
        let place = entries.partition_point(|entry| entry.position < position);
        match entries
            .get(place)
            .filter(|entry| entry.position == position)
        {
            Some(shown) if shown.lookups.len() == ladder.len() => {}
            Some(shown) => {
                let other = with_lookups(base, shown, &ladder);
                list.on_response(name, move |response| {
                    response.entries[place] = other.clone()
                });
            }
            None => {
                let more = with_lookups(base, &base.entry(position), &ladder);
                list.on_response(name, move |response| {
                    response.entries.insert(place, more.clone());
                });
            }
        }
    }
    list
}

/// The log's answers for maps that differ in one pair, where they are other answers.
pub fn cases(base: &Base) -> Vec<Case> {
    if base.exchange.kind != Kind::Monitor {
        return Vec::new();
    }
    let state = &base.exchange.state;
    let mut list = Vec::new();
    for (name, pairs) in other_maps(&state.pairs) {
        let mut question = base.question.clone();
        question.state.pairs = pairs;
        let answer = base.log.monitor(&question).expect("the log has entries");
        let mut exchange = answer.exchange;
        exchange.state = state.clone();
        if exchange.response != base.exchange.response {
            let name = format!("{}: answered for a map {name}", base.name);
            list.push(Case::of(name, 9, &exchange));
        }
    }
    list
}

type Pairs = Vec<(u64, u32)>;

/// One pair left out, one position on, of a version less or more.
fn other_maps(pairs: &Pairs) -> Vec<(String, Pairs)> {
    let mut list = Vec::new();
    for (at, (position, version)) in pairs.iter().copied().enumerate() {
        let mut add = |how: String, pair: Option<(u64, u32)>| {
            let mut other = pairs.clone();
            other.splice(at..=at, pair);
            list.push((format!("whose pair at {position} is {how}"), other));
        };
        add("left out".to_string(), None);
        add("one position on".to_string(), Some((position + 1, version)));
        for other in [version.wrapping_sub(1), version + 1] {
            if other <= limits::VERSION {
                add(format!("of version {other}"), Some((position, other)));
            }
        }
    }
    list
}

/// The damages to the monitoring of the greatest version, which looks up 63.
pub fn fixed_cases() -> Vec<Case> {
    let log = with_greatest(limits::VERSION, VrfRule::Hashed { seed: 1 });
    let question = question(&log, b"hub", 3, &[(2, limits::VERSION)], 5);
    let name = "monitoring of version 2^32 - 2";
    let base = Base::new(name, Kind::Monitor, &log, question);
    let damages = damages(&base).into_iter();
    let mut list: Vec<Case> = damages.map(|damage| damage.apply(&base)).collect();
    list.extend(cases(&base));
    list
}
