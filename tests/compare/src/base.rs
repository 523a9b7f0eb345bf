//! Logs of a planned growth, and the honest exchanges that damaged cases start from.

use crate::making::looked_up;
use honest_log::model::{Entry, Exchange, Kind, Lookup, Response, Settings, State};
use honest_log::{ContentRule, Log, Question, VrfRule};

/// Keys as long as the suite's (001 15.1), bounds of a minute and a day.
pub fn settings() -> Settings {
    Settings {
        suite: 1,
        mode: 1,
        signature_key: (1..=65).collect(),
        vrf_key: (101..=133).collect(),
        max_ahead: 60_000,
        max_behind: 86_400_000,
        monitoring_window: 604_800_000,
        maximum_lifetime: None,
    }
}

/// How a log grows: which versions of a label it has at which entries, and when.
#[derive(Clone, Debug)]
pub struct Plan {
    pub label: Vec<u8>,
    pub size: u64,
    /// Position and greatest version from there on, both rising.
    pub versions: Vec<(u64, u32)>,
    /// How many versions of other labels each entry adds.
    pub others: u32,
    pub first_time: u64,
    /// The time between two entries.
    pub pace: u64,
    pub vrf: VrfRule,
    pub contents: ContentRule,
}

impl Plan {
    pub fn new(label: &[u8], size: u64, versions: &[(u64, u32)]) -> Plan {
        Plan {
            label: label.to_vec(),
            size,
            versions: versions.to_vec(),
            others: 1,
            first_time: 1_700_000_000_000,
            pace: 1_000,
            vrf: VrfRule::Hashed { seed: 1 },
            contents: ContentRule {
                seed: 1,
                shortest: 3,
                longest: 12,
            },
        }
    }

    pub fn log(&self) -> Log {
        let mut log = Log::new(self.vrf.clone());
        let mut next = 0;
        for position in 0..self.size {
            let greatest = self.versions.iter().rfind(|(from, _)| *from <= position);
            let end = greatest.map_or(0, |(_, version)| version + 1);
            let versions: Vec<u32> = (next..end).collect();
            next = next.max(end);
            let mut additions = self.contents.additions(&self.label, &versions);
            for other in 0..self.others {
                let label = format!("other {other}").into_bytes();
                additions.push(self.contents.addition(&label, position as u32));
            }
            log.append(self.first_time + position * self.pace, &additions);
        }
        log
    }
}

/// An honest exchange with the log it comes from.
#[derive(Clone, Debug)]
pub struct Base {
    pub name: String,
    pub log: Log,
    pub question: Question,
    pub exchange: Exchange,
}

/// What a checker asks, at the time of the last entry.
pub fn question(
    log: &Log,
    label: &[u8],
    old_size: u64,
    pairs: &[(u64, u32)],
    size: u64,
) -> Question {
    Question {
        identifier: (0xa0..0xb0).collect(),
        clock: log.entry(size - 1).time,
        settings: settings(),
        state: log.state(label, old_size, pairs),
        size,
    }
}

impl Base {
    /// The exchange of a question that is answered honestly and must be accepted.
    pub fn new(name: &str, kind: Kind, log: &Log, question: Question) -> Base {
        let answer = match kind {
            Kind::Search => log.search(&question),
            Kind::Monitor => log.monitor(&question),
        };
        let answer = answer.expect("the log can answer");
        assert_eq!(answer.obstacles, [], "{name}");
        Base {
            name: name.to_string(),
            log: log.clone(),
            question,
            exchange: answer.exchange,
        }
    }

    /// The same question to another log by a checker that has a state, at that log's last time.
    pub fn asked_with(&self, state: State, log: &Log) -> Option<Exchange> {
        let question = Question {
            clock: log.entry(self.question.size - 1).time,
            state,
            ..self.question.clone()
        };
        let answer = match self.found() {
            Some(version) => log.search_target(&question, version),
            None => log.monitor(&question),
        };
        answer.ok().map(|answer| answer.exchange)
    }

    /// The same question to another log by a checker that has kept that log's own history.
    pub fn asked_of(&self, log: &Log) -> Option<Exchange> {
        let state = &self.question.state;
        self.asked_with(log.state(&state.label, state.size, &state.pairs), log)
    }

    pub fn label(&self) -> &[u8] {
        &self.question.state.label
    }

    pub fn response(&self) -> &Response {
        &self.exchange.response
    }

    /// The version that a search finds.
    pub fn found(&self) -> Option<u32> {
        self.response().target.as_ref().map(|target| target.version)
    }

    /// The positions that the response shows.
    pub fn shown(&self) -> Vec<u64> {
        self.response()
            .entries
            .iter()
            .map(|entry| entry.position)
            .collect()
    }

    /// The log's entry at a position, without lookups.
    pub fn entry(&self, position: u64) -> Entry {
        let entry = self.log.entry(position);
        Entry {
            position,
            time: entry.time,
            prefix_root: entry.prefix_root,
            lookups: Vec::new(),
        }
    }

    /// The log's lookup of a version of the label at a position.
    pub fn lookup(&self, position: u64, version: u32) -> Lookup {
        let output = self.log.output(self.label(), version);
        let (result, siblings) = self.log.entry(position).prefix_tree.lookup(&output);
        looked_up(version, result, siblings)
    }
}

/// Searches of several shapes: few entries and many, ladders that end early, all histories kept or
/// none.
pub fn searches() -> Vec<Base> {
    let ask = |name: &str, plan: &Plan, old_size, pairs: &[(u64, u32)], size| {
        let log = plan.log();
        let question = question(&log, &plan.label, old_size, pairs, size);
        Base::new(name, Kind::Search, &log, question)
    };
    let thirteen = Plan::new(b"pump", 13, &[(3, 1), (8, 4), (11, 5)]);
    let mut lone = Plan::new(b"x", 1, &[(0, 0)]);
    lone.others = 0;
    vec![
        ask(
            "search of 13 after 10",
            &thirteen,
            10,
            &[(7, 1), (9, 4)],
            13,
        ),
        ask("search of 13 after 13", &thirteen, 13, &[(12, 5)], 13),
        ask("search of 13 from new", &thirteen, 0, &[], 13),
        ask("search of 1 from new", &lone, 0, &[], 1),
        ask(
            "search of 14 after 7",
            &Plan::new(b"", 14, &[(5, 0), (9, 3)]),
            7,
            &[],
            14,
        ),
        ask(
            "search of 60 after 37",
            &Plan::new(b"valve", 60, &[(2, 2), (33, 19), (50, 20)]),
            37,
            &[(20, 2)],
            60,
        ),
    ]
}

/// Monitoring of several shapes: pairs on and off the frontier, pairs that meet, one dominated by
/// another, one on another's path.
pub fn monitorings() -> Vec<Base> {
    let ask = |name: &str, plan: &Plan, old_size, pairs: &[(u64, u32)], size| {
        let log = plan.log();
        let question = question(&log, &plan.label, old_size, pairs, size);
        Base::new(name, Kind::Monitor, &log, question)
    };
    let fourteen = Plan::new(b"pump", 14, &[(0, 0), (3, 2), (6, 3), (8, 5)]);
    let eight = Plan::new(b"vane", 8, &[(0, 5)]);
    vec![
        ask(
            "monitoring of 14 after 10",
            &fourteen,
            10,
            &[(4, 2), (8, 5)],
            14,
        ),
        ask(
            "monitoring of 14, one pair dominated",
            &fourteen,
            9,
            &[(3, 2), (6, 3), (7, 3)],
            14,
        ),
        ask(
            "monitoring of 14, all on the frontier",
            &fourteen,
            14,
            &[(7, 3), (11, 5), (13, 5)],
            14,
        ),
        ask("monitoring of 14, empty map", &fourteen, 5, &[], 14),
        ask("monitoring of 14 from new", &fourteen, 0, &[], 14),
        ask(
            "monitoring of 60 after 37",
            &Plan::new(b"valve", 60, &[(2, 2), (33, 19)]),
            37,
            &[(20, 2), (24, 1), (35, 19)],
            60,
        ),
        ask(
            "monitoring of 8, a pair dominated by a farther one",
            &eight,
            7,
            &[(0, 5), (2, 2)],
            8,
        ),
        ask(
            "monitoring of 8, a pair dominated by a nearer one",
            &eight,
            6,
            &[(3, 2), (4, 5)],
            8,
        ),
        ask(
            "monitoring of 8, three pairs that meet",
            &eight,
            7,
            &[(1, 1), (4, 5), (6, 2)],
            8,
        ),
        ask(
            "monitoring of 8, larger versions on the path",
            &eight,
            8,
            &[(4, 1), (5, 2), (7, 5)],
            8,
        ),
        ask(
            "monitoring of 8, smaller versions on the path",
            &eight,
            8,
            &[(4, 5), (5, 2), (7, 1)],
            8,
        ),
    ]
}

/// All of them.
pub fn fixed() -> Vec<Base> {
    let mut bases = searches();
    bases.extend(monitorings());
    bases
}
