//! The examples that paper 01 asks to be run by a program (Worked examples, both sides), and the
//! easy errors it names.

use crate::base::{self, question, Base, Plan};
use crate::case::Case;
use crate::damage::leaves::misplaced;
use crate::damage::Damage;
use crate::honest::extremes::{text_lengths, with_greatest};
use crate::honest::maps::plain_log;
use crate::limits;
use honest_log::ladder::binary_ladder;
use honest_log::model::{Kind, LookupResult};
use honest_log::VrfRule;

pub fn cases() -> Vec<Case> {
    let mut list = targets();
    list.extend(sizes());
    list.extend(identifiers());
    list.extend(clocks());
    list.extend(kept_times());
    list.extend(maps());
    list.extend(hidden_version());
    list.extend(early_version());
    list.extend(compared_value());
    list
}

/// The cases that are stored as folders (`tests/worked`), by the folder's name and their own.
const WORKED: [(&str, &str); 9] = [
    ("greatest-version", "ladder of 2^32 - 2 by 64 versions"),
    (
        "past-greatest-version",
        "t = 2^32 - 1 with a ladder of its own",
    ),
    ("same-size", "search with n = 11 and m = 11"),
    ("smaller-size", "search with n = 10 and m = 11"),
    (
        "identifier-off-by-a-bit",
        "search of 13 after 10: identifier off by one bit",
    ),
    (
        "time-at-bound",
        "search of 13 after 10: last time at clock + max_ahead",
    ),
    (
        "time-past-bound",
        "search of 13 after 10: last time one past clock + max_ahead",
    ),
    ("full-map-new-position", "48 pairs and new position"),
    ("full-map-old-position", "48 pairs and old position"),
];

/// Those cases and a search that finds a value of no bytes, each with the folder's name.
pub fn worked() -> Vec<(&'static str, Case)> {
    let cases = cases();
    let named = |name: &str| cases.iter().find(|case| case.name == name);
    let found = |(folder, name)| (folder, named(name).expect(name).clone());
    let mut list = WORKED.map(found).to_vec();
    list.push(("empty-value", text_lengths(1, 0, 0, &[])));
    list
}

/// The greatest version has a ladder of 64 steps, all looked up at one entry, so that the program
/// reads the response too; the number above it is no version.
fn targets() -> Vec<Case> {
    let log = with_greatest(limits::VERSION, VrfRule::Hashed { seed: 1 });
    let question = question(&log, b"hub", 0, &[], 4);
    let base = Base::new("ladder of 2^32 - 2", Kind::Search, &log, question);
    assert_eq!(binary_ladder(limits::VERSION).len(), 64);
    let past = Damage::on_exchange(8, "target 2^32 - 1", |exchange| {
        if let Some(target) = &mut exchange.response.target {
            target.version = u32::MAX;
        }
    });
    let mut list = vec![
        Case::of("ladder of 2^32 - 2 by 64 versions", 0, &base.exchange),
        past.apply(&base),
    ];
    if let Ok(answer) = log.search_target(&base.question, u32::MAX) {
        list.push(Case::of(
            "t = 2^32 - 1 with a ladder of its own",
            8,
            &answer.exchange,
        ));
    }
    list
}

/// n = m is accepted, n = m - 1 is not.
fn sizes() -> Vec<Case> {
    let log = Plan::new(b"mast", 12, &[(0, 0), (5, 1)]).log();
    let mut list = Vec::new();
    for (size, number) in [(11, 0), (10, 7)] {
        for kind in [Kind::Search, Kind::Monitor] {
            let question = question(&log, b"mast", 11, &[(7, 1)], size);
            let answer = crate::honest::answer(&log, kind, &question);
            let name = format!("{} with n = {size} and m = 11", kind.word());
            list.extend(answer.map(|answer| Case::of(name, number, &answer.exchange)));
        }
    }
    list
}

/// An identifier off by one bit.
fn identifiers() -> Vec<Case> {
    let flipped = Damage::on_inputs(6, "identifier off by one bit", |inputs| {
        inputs.identifier[15] ^= 1
    });
    let bases = [base::searches().remove(0), base::monitorings().remove(0)];
    bases.iter().map(|base| flipped.apply(base)).collect()
}

/// A last time at each bound around the clock and one past it, also where the time is the first or
/// the last of all.
fn clocks() -> Vec<Case> {
    let at = |name: &str, time: u64| {
        let log = Plan {
            first_time: time,
            pace: 0,
            ..Plan::new(b"noon", 3, &[(0, 0)])
        }
        .log();
        let question = question(&log, b"noon", 2, &[(1, 0)], 3);
        Base::new(name, Kind::Search, &log, question)
    };
    let bases = [
        base::searches().remove(0),
        base::monitorings().remove(0),
        at("search at time 0", 0),
        at("search at time 2^64 - 1", u64::MAX),
    ];
    let mut list = Vec::new();
    for base in bases {
        let time = base.exchange.new_state.time;
        let earliest = time.checked_sub(base.exchange.settings.max_ahead);
        let latest = time.checked_add(base.exchange.settings.max_behind);
        let clocks = [
            (0, "at clock + max_ahead", earliest),
            (11, "one past clock + max_ahead", earliest.map(|c| c - 1)),
            (0, "at clock - max_behind", latest),
            (11, "one before clock - max_behind", latest.map(|c| c + 1)),
        ];
        for (number, bound, clock) in clocks {
            let Some(clock) = clock else { continue };
            let name = format!("last time {bound}");
            let damage = Damage::on_inputs(number, name, move |inputs| inputs.clock = clock);
            list.push(damage.apply(&base));
        }
    }
    list
}

/// A kept time at that of the entries shown on either side of the old size, and one past it.
fn kept_times() -> Vec<Case> {
    let base = base::searches().remove(0);
    let entries = &base.exchange.response.entries;
    let (old, new) = (entries[0].time, entries[1].time);
    assert!(entries[0].position < base.exchange.state.size);
    assert!(entries[1].position >= base.exchange.state.size);
    let times = [
        (0, "at an old entry's", old),
        (11, "one before an old entry's", old - 1),
        (0, "at a new entry's", new),
        (11, "one after a new entry's", new + 1),
    ];
    let kept = |(number, bound, time): (u8, &str, u64)| {
        Damage::on_exchange(number, format!("kept time {bound}"), move |exchange| {
            exchange.state.time = time
        })
        .apply(&base)
    };
    times.into_iter().map(kept).collect()
}

/// 48 pairs: a new position is one too many, an old one is not.
fn maps() -> Vec<Case> {
    let log = plain_log();
    let most = limits::PAIRS as u64;
    let mut list = Vec::new();
    for (name, first, number) in [("new", 0, 16), ("old", 128 - most, 0)] {
        let pairs: Vec<(u64, u32)> = (first..first + most)
            .map(|position| (position, 0))
            .collect();
        let question = question(&log, b"pitch", 128, &pairs, 128);
        if let Ok(answer) = log.search(&question) {
            list.push(Case::of(
                format!("48 pairs and {name} position"),
                number,
                &answer.exchange,
            ));
        }
    }
    list
}

/// A newer version that is there, shown as another leaf than the searched one.
fn hidden_version() -> Vec<Case> {
    let log = Plan::new(b"yaw", 3, &[(0, 0), (2, 1)]).log();
    let question = question(&log, b"yaw", 0, &[], 3);
    let Ok(answer) = log.search_target(&question, 0) else {
        return Vec::new();
    };
    let mut exchange = answer.exchange;
    let mut list = vec![Case::of(
        "version 1 is there and 0 is said to be the last",
        13,
        &exchange,
    )];
    let output = log.output(b"yaw", 1);
    let commitment = log.commitment(b"yaw", 1);
    for entry in &mut exchange.response.entries {
        for lookup in &mut entry.lookups {
            if lookup.version == 1 && lookup.result == LookupResult::Inclusion {
                lookup.result = LookupResult::OtherLeaf { output, commitment };
            }
        }
    }
    list.push(Case::of("nl that names the searched leaf", 12, &exchange));
    list.push(Case::of(
        "nl whose other leaf stands elsewhere",
        12,
        &misplaced(4, 3),
    ));
    list
}

/// A version above the target at an early entry, the last one being right.
fn early_version() -> Vec<Case> {
    let log = Plan::new(b"yaw", 3, &[(0, 0)]).log();
    let tree = log
        .entry(1)
        .prefix_tree
        .with(&[(log.output(b"yaw", 1), [7; limits::DIGEST])]);
    let log = log.with_prefix_tree(1, tree);
    let question = question(&log, b"yaw", 0, &[], 3);
    let answer = log.search_target(&question, 0).ok();
    let name = "in above t at an early entry";
    answer
        .map(|answer| Case::of(name, 13, &answer.exchange))
        .into_iter()
        .collect()
}

/// A kept value under which something is shown is compared even where the rest is right.
fn compared_value() -> Vec<Case> {
    let log = Plan::new(b"yaw", 5, &[(0, 0)]).log();
    let mut list = Vec::new();
    for kind in [Kind::Search, Kind::Monitor] {
        let question = question(&log, b"yaw", 5, &[], 5);
        let base = Base::new("yaw of 5 after 5", kind, &log, question);
        for at in 0..2 {
            let mut exchange = base.exchange.clone();
            exchange.state.values[at] = [3; limits::DIGEST];
            let name = format!("{} with kept value {at} contradicted", kind.word());
            list.push(Case::of(name, 14, &exchange));
        }
    }
    list
}
