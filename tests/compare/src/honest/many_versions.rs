//! Monitoring that asks for as many versions as a sheet has records, and for more, of which nobody
//! can then give all outputs (paper 01, What a call is given, and number 10).

use super::monitored_versions;
use crate::base::{question, Base};
use crate::case::Case;
use crate::limits;
use honest_log::ladder::monitoring_ladder;
use honest_log::model::Digest;
use honest_log::{ContentRule, Log, LogEntry, PrefixTree, Random, VrfRule};

/// As many versions as a sheet has records.
pub const MOST: usize = limits::SHEET / limits::RECORD;

const LABEL: &[u8] = b"brake";

const RULE: ContentRule = ContentRule {
    seed: 8,
    shortest: 1,
    longest: 4,
};

/// The ladders here have the 32 versions up to this one in common. Of the 31 bits that follow, the
/// first six number the pairs and the others are set.
const COMMON: u32 = (1 << 31) - 1;
const SET: usize = 25;

/// Each pair asks for a version for each bit set, and for the last one in its number, earlier ones
/// being an earlier pair's too. The first pair has none there and asks for the common versions.
const EACH: usize = SET + 1;
const FIRST: usize = 32 - 1;

/// As many as 48 pairs ask for.
pub const OF_ALL_PAIRS: usize = FIRST + limits::PAIRS * EACH;

/// Rising versions for whose ladders so many are looked up; the last pair has fewer bits set.
fn versions_asking(count: usize) -> Vec<u32> {
    let version = |number: usize, set: usize| {
        COMMON + ((number as u32) << SET) + (((1 << set) - 1) << (SET - set))
    };
    let (pairs, rest) = ((count - FIRST) / EACH, (count - FIRST) % EACH);
    let mut versions: Vec<u32> = (0..pairs).map(|number| version(number, SET)).collect();
    versions.extend((rest > 0).then(|| version(pairs, rest - 1)));
    versions
}

/// An output that begins with the place of a version in its ladders, in six bits.
fn output(version: u32) -> Digest {
    let next = version + 1;
    let place = match next.is_power_of_two() {
        true => next.ilog2(),
        false => 32 + next.trailing_zeros(),
    };
    let mut output = Random::of(RULE.seed, LABEL, version).digest();
    output[0] = (place << 2) as u8 | output[0] & 3;
    output
}

/// A log in which every two entries have just what is looked up for a pair on the first of them, so
/// that paths are short.
fn log(versions: &[u32]) -> Log {
    let asked = monitored_versions(versions);
    let outputs: Vec<Digest> = asked.iter().map(|version| output(*version)).collect();
    let otherwise = VrfRule::Hashed { seed: 1 };
    let mut log = Log::new(VrfRule::table(LABEL, &asked, &outputs, otherwise));
    for (number, version) in versions.iter().enumerate() {
        let ladder = monitoring_ladder(*version).into_iter();
        let leaves: Vec<(Digest, Digest)> = ladder
            .map(|version| log.set_contents(&RULE.addition(LABEL, version)))
            .collect();
        let tree = PrefixTree::new().with(&leaves);
        log.append_entries(LogEntry::new(number as u64, tree), 2);
    }
    log
}

/// Monitoring that asks for so many versions, after as many entries or one fewer. Of more than
/// 1,024 the first are in the sheet.
pub fn asking(count: usize, fewer: u64) -> Base {
    let versions = versions_asking(count);
    let log = log(&versions);
    let size = log.size();
    let pairs: Vec<(u64, u32)> = (0..size).step_by(2).zip(versions).collect();
    let old_size = size - fewer;
    let question = question(&log, LABEL, old_size, &pairs, size);
    let answer = log.monitor(&question).expect("the log has entries");
    let mut exchange = answer.exchange;
    assert_eq!(exchange.sheet.len(), count);
    exchange.sheet.truncate(MOST);
    Base {
        name: format!("monitor of {size} after {old_size} that asks for {count} versions"),
        log,
        question,
        exchange,
    }
}

/// The same without siblings, which number 12 would ask for.
pub fn without_siblings(mut base: Base) -> Base {
    let entries = base.exchange.response.entries.iter_mut();
    let lookups = entries.flat_map(|entry| &mut entry.lookups);
    lookups.for_each(|lookup| lookup.siblings.clear());
    base
}

/// Such monitoring as it is: accepted as long as the sheet has room. A response of all pairs has no
/// room for siblings.
pub fn case(count: usize, fewer: u64) -> Case {
    let number = if count > MOST { 10 } else { 0 };
    let mut base = asking(count, fewer);
    if count > MOST && base.response().text().len() > limits::RESPONSE {
        base = without_siblings(base);
    }
    Case::of(&base.name, number, &base.exchange)
}

pub fn cases() -> Vec<Case> {
    let mut list = Vec::new();
    for count in [MOST - 1, MOST, MOST + 1, OF_ALL_PAIRS] {
        for fewer in [0, 1] {
            list.push(case(count, fewer));
        }
    }
    list
}
