//! Numbers 12 and 13 in monitoring of a log that lost a version: the place is shown to be empty or
//! another leaf's, by a path that holds or by one that does not (paper 01, Monitoring).

use super::leaves::{flipped, path_value};
use super::{apply_all, paths, Damage};
use crate::base::{question, Base};
use crate::case::Case;
use crate::limits;
use crate::making::looked_up;
use honest_log::hashes::prefix_leaf;
use honest_log::model::{Digest, Entry, Kind, LookupResult};
use honest_log::{ContentRule, Log, LogEntry, Random, VrfRule};

const LABEL: &[u8] = b"reel";

const RULE: ContentRule = ContentRule {
    seed: 7,
    shortest: 1,
    longest: 5,
};

/// The bits of an output.
const BITS: usize = 8 * limits::DIGEST;

/// An output with these first bits.
fn beginning(byte: u8) -> Digest {
    let mut output = [byte.wrapping_mul(7); limits::DIGEST];
    output[0] = byte;
    output
}

/// A log of two entries with versions 0 and 1, of which the second entry has lost version 1. Of the
/// other labels' leaves one stands on the far side, and one may stand beside version 0: then the
/// lost version's place is empty, else version 0's leaf takes it.
fn log(beside: bool) -> Log {
    let outputs = [0b0000_0000, 0b0100_0000, 0b0010_0000, 0b1000_0000].map(beginning);
    let hashed = VrfRule::Hashed { seed: 1 };
    let others = VrfRule::table(b"rope", &[0, 1], &outputs[2..], hashed);
    let mut log = Log::new(VrfRule::table(LABEL, &[0, 1], &outputs[..2], others));
    let mut additions = RULE.additions(LABEL, &[0, 1]);
    additions.push(RULE.addition(b"rope", 1));
    if beside {
        additions.push(RULE.addition(b"rope", 0));
    }
    log.append(1, &additions);
    let tree = log.newest_prefix_tree().without(&log.output(LABEL, 1));
    log.append_entries(LogEntry::new(2, tree), 1);
    log
}

/// The monitoring of version 1 from the first entry on, refused with 13.
fn monitoring(name: &str, log: &Log) -> Base {
    let question = question(log, LABEL, 1, &[(0, 1)], 2);
    let answer = log.monitor(&question).expect("the log has entries");
    Base {
        name: name.to_string(),
        log: log.clone(),
        question,
        exchange: answer.exchange,
    }
}

/// The loss, as a damage that changes nothing.
fn lost() -> Damage {
    Damage::on_exchange(13, "a lost version", |_| {})
}

pub fn fixed_cases() -> Vec<Case> {
    let bases = [
        monitoring("a lost version's place empty", &log(true)),
        monitoring("a lost version's place another leaf's", &log(false)),
    ];
    let mut list = Vec::new();
    for base in &bases {
        let lost = lost();
        list.push(lost.apply(base));
        let damages = paths::damages(base);
        list.extend(
            damages
                .iter()
                .map(|damage| apply_all(&[damage, &lost], base)),
        );
    }
    for depth in [1, 2, 3, 8, 9, 64, 254, 255] {
        for shared in [0, depth / 2, depth - 1, depth, 255, BITS] {
            list.push(taken(depth, shared));
        }
    }
    list
}

/// The lost version's place at a depth taken by a leaf whose output shares so many bits with the
/// lost one's; with fewer than the depth it cannot stand there, with all it is no other leaf.
fn taken(depth: usize, shared: usize) -> Case {
    let mut random = Random::new(depth as u64 * 1000 + shared as u64);
    let lost = random.digest();
    let there = flipped(&lost, depth - 1);
    let other = match shared {
        BITS => lost,
        place => flipped(&lost, place),
    };
    let vrf = VrfRule::table(LABEL, &[0, 1], &[there, lost], VrfRule::Hashed { seed: 1 });
    let mut log = Log::new(vrf);
    log.append_run(1, &RULE.additions(LABEL, &[0, 1]), 2);

    let leaf = prefix_leaf(&there, &log.commitment(LABEL, 0));
    let commitment = random.digest();
    let above: Vec<Digest> = (1..depth).map(|_| random.digest()).collect();
    let siblings = [&above[..], &[prefix_leaf(&other, &commitment)]].concat();
    let log = log.with_prefix_root(1, path_value(leaf, &there, &siblings, 0));
    let result = LookupResult::OtherLeaf {
        output: other,
        commitment,
    };
    let mut exchange = monitoring("", &log).exchange;
    exchange.response.entries[0].lookups = vec![
        looked_up(0, LookupResult::Inclusion, siblings),
        looked_up(1, result, [&above[..], &[leaf]].concat()),
    ];
    let name = format!("a lost version's place at {depth}, a leaf that shares {shared} bits there");
    let number = if (depth..BITS).contains(&shared) {
        13
    } else {
        12
    };
    Case::of(name, number, &exchange)
}

/// The monitoring of a base, if it looks up anything, in a log that lost a random version at a
/// random entry, by paths of which one may be damaged.
pub fn random(base: &Base, random: &mut Random) -> Option<Case> {
    if base.exchange.kind != Kind::Monitor {
        return None;
    }
    let entries = base.response().entries.iter();
    let entries: Vec<&Entry> = entries.filter(|entry| !entry.lookups.is_empty()).collect();
    let at = random.below(entries.len().max(1) as u64) as usize;
    let entry = entries.get(at)?;
    let version = random.pick(&entry.lookups).version;
    let output = base.log.output(base.label(), version);
    let tree = base.log.entry(entry.position).prefix_tree.without(&output);
    let log = base.log.with_prefix_tree(entry.position, tree);
    let base = Base {
        name: format!(
            "{}, version {version} lost at {}",
            base.name, entry.position
        ),
        exchange: base.asked_of(&log)?,
        question: base.question.clone(),
        log,
    };
    if random.one_in(4) {
        return Some(lost().apply(&base));
    }
    let damages = paths::damages(&base);
    Some(apply_all(&[random.pick(&damages), &lost()], &base))
}
