//! Numbers 7 and 8: the size answered for, and the version found (paper 01, Sixteen numbers).

use super::{Damage, Damages};
use crate::base::{question, Base};
use crate::case::Case;
use crate::limits;
use honest_log::model::Kind;
use honest_log::ContentRule;

pub fn damages(base: &Base) -> Vec<Damage> {
    let old_size = base.exchange.state.size;
    let mut list = Vec::new();
    let mut sizes = vec![0, limits::SIZE + 1, 2 * limits::SIZE, 1 << 63, u64::MAX];
    if old_size > 0 {
        sizes.extend([old_size - 1, old_size / 2]);
    }
    sizes.sort();
    sizes.dedup();
    for size in sizes {
        list.on_exchange(7, format!("head of size {size}"), move |exchange| {
            exchange.response.size = size;
        });
    }
    list.on_exchange(7, "size 0 and nothing shown", |exchange| {
        exchange.response.size = 0;
        exchange.response.entries.clear();
        exchange.response.nodes.clear();
    });
    if let Some(found) = base.found() {
        list.extend(targets(base, found));
    }
    list
}

/// A found version that is none, and one below a pair's.
fn targets(base: &Base, found: u32) -> Vec<Damage> {
    let pairs = &base.exchange.state.pairs;
    let mut targets = vec![u32::MAX];
    if let Some(largest) = pairs.iter().map(|pair| pair.1).max() {
        targets.extend([0, largest.saturating_sub(1)]);
        targets.retain(|target| *target == u32::MAX || *target < largest);
    }
    let mut list = Vec::new();
    for version in targets {
        let name = format!("target {version} with {} pairs", pairs.len());
        list.on_exchange(8, name, move |exchange| {
            if let Some(target) = &mut exchange.response.target {
                target.version = version;
            }
        });
    }
    for pair in 0..pairs.len() {
        for version in [found + 1, limits::VERSION] {
            if version <= found || version > limits::VERSION {
                continue;
            }
            let name = format!("pair {pair} of version {version} above the target");
            list.on_exchange(8, name, move |exchange| {
                exchange.state.pairs[pair].1 = version
            });
        }
    }
    list
}

/// Answers of real logs of another size.
pub fn cases(base: &Base) -> Vec<Case> {
    let mut list = Vec::new();
    let old_size = base.exchange.state.size;
    for size in [old_size.saturating_sub(1), old_size / 2] {
        if size == 0 || size == old_size {
            continue;
        }
        let mut question = base.question.clone();
        question.size = size;
        let answer = match base.exchange.kind {
            Kind::Search => base.log.search_target(&question, base.found().unwrap_or(0)),
            Kind::Monitor => base.log.monitor(&question),
        };
        if let Ok(answer) = answer {
            list.push(Case::of(
                format!("{}: answered for size {size} after {old_size}", base.name),
                7,
                &answer.exchange,
            ));
        }
    }
    list.extend(past_the_limit(base));
    list
}

/// The log continued by equal entries to 2^40 entries, and one more.
fn past_the_limit(base: &Base) -> Vec<Case> {
    let mut log = base.log.clone();
    let time = log.entry(log.size() - 1).time;
    let rule = ContentRule {
        seed: 9,
        shortest: 1,
        longest: 1,
    };
    log.append_run(
        time,
        &rule.additions(b"last", &[0]),
        limits::SIZE + 1 - log.size(),
    );
    let mut list = Vec::new();
    for (size, number) in [(limits::SIZE, 0), (limits::SIZE + 1, 7)] {
        let state = &base.exchange.state;
        let question = question(&log, &state.label, state.size, &state.pairs, size);
        let answer = match base.exchange.kind {
            Kind::Search => log.search(&question),
            Kind::Monitor => log.monitor(&question),
        };
        if let Ok(answer) = answer {
            list.push(Case::of(
                format!("{}: continued to size {size}", base.name),
                number,
                &answer.exchange,
            ));
        }
    }
    list
}
