//! Chains of calls: a log grows while checkers of several labels ask it, each handing its state on
//! from call to call. A refused call leaves its state as it was (paper 01, Sixteen numbers).

use super::{answer, case};
use crate::base::Base;
use crate::case::Case;
use crate::damage;
use crate::limits;
use honest_log::model::{Kind, Settings, State};
use honest_log::{Addition, ContentRule, Log, Question, Random, VrfRule};

/// A label with what its checker keeps and the version that comes next.
struct Checker {
    state: State,
    next_version: u32,
}

pub struct Chain {
    seed: u64,
    calls: usize,
    random: Random,
    log: Log,
    contents: ContentRule,
    settings: Settings,
    checkers: Vec<Checker>,
    time: u64,
    /// Whether entries come in long runs of equal ones.
    sparse: bool,
}

impl Chain {
    pub fn new(seed: u64) -> Chain {
        let mut random = Random::new(seed.wrapping_mul(0x2545_f491_4f6c_dd1d) ^ 0xc4a1);
        let vrf = match random.below(4) {
            0 => VrfRule::Shared {
                seed,
                bits: random.below(20) as usize,
            },
            _ => VrfRule::Hashed { seed },
        };
        let longest = *random.pick(&[0, 4, 20, 64, limits::VALUE]);
        let count = random.between(1, 3);
        let checkers = (0..count)
            .map(|index| checker(&mut random, index as u8))
            .collect();
        Chain {
            seed,
            calls: 0,
            log: Log::new(vrf),
            contents: ContentRule {
                seed,
                shortest: 0,
                longest,
            },
            settings: settings(&mut random),
            checkers,
            time: *random.pick(&[0, 1_000, 1_700_000_000_000, u64::MAX - 100_000]),
            sparse: random.one_in(3),
            random,
        }
    }

    /// Appends some entries, each with new versions of some labels or with none.
    fn grow(&mut self, least: u64) {
        for _ in 0..self.random.between(least, 5) {
            let room = limits::SIZE - self.log.size();
            let count = if self.sparse {
                power(&mut self.random, 36)
            } else {
                1
            };
            let additions = self.additions();
            let pace = *self.random.pick(&[0, 1, 10, 1_000]);
            self.time = self.time.saturating_add(pace);
            if room > 0 {
                self.log.append_run(self.time, &additions, count.min(room));
            }
        }
    }

    fn additions(&mut self) -> Vec<Addition> {
        let mut additions = Vec::new();
        for checker in &mut self.checkers {
            if self.random.one_in(2) {
                for _ in 0..self.random.between(1, 3) {
                    let label = &checker.state.label;
                    additions.push(self.contents.addition(label, checker.next_version));
                    checker.next_version += 1;
                }
            }
        }
        additions
    }

    /// The size to answer for: mostly the whole log, sometimes an earlier one, seldom one that the
    /// checker has passed.
    fn size(&mut self, old_size: u64) -> u64 {
        let size = self.log.size();
        match self.random.below(12) {
            0 => self.random.between(1, size),
            1..=3 => self.random.between(old_size.clamp(1, size), size),
            _ => size,
        }
    }

    fn clock(&mut self, size: u64) -> u64 {
        let clocks = self.log.clocks(size, &self.settings);
        let (first, last) = (*clocks.start(), *clocks.end());
        match self.random.below(8) {
            0 => first,
            1 => last,
            2 => last.saturating_add(1),
            _ => self.random.between(first, last),
        }
    }

    /// A random question of a checker and its answer.
    fn ask(&mut self, checker: usize) -> (Base, honest_log::Answer) {
        let state = self.checkers[checker].state.clone();
        let size = self.size(state.size);
        let question = Question {
            identifier: self.random.bytes(limits::IDENTIFIER),
            clock: self.clock(size),
            settings: self.settings.clone(),
            state,
            size,
        };
        let kind = *self
            .random
            .pick(&[Kind::Search, Kind::Search, Kind::Monitor]);
        let answer = match answer(&self.log, kind, &question) {
            Some(answer) => answer,
            None => self
                .log
                .monitor(&question)
                .expect("a log with entries can be monitored"),
        };
        let exchange = answer.exchange.clone();
        let word = exchange.kind.word();
        let name = format!(
            "chain {}, call {}: {word} of {size} after {}",
            self.seed, self.calls, exchange.state.size
        );
        (
            Base {
                name,
                log: self.log.clone(),
                question,
                exchange,
            },
            answer,
        )
    }

    /// Grows the log and lets some checker ask.
    fn call(&mut self) -> (usize, Base, honest_log::Answer) {
        let least = if self.log.size() == 0 { 1 } else { 0 };
        self.grow(least);
        let checker = self.random.below(self.checkers.len() as u64) as usize;
        self.calls += 1;
        let (base, answer) = self.ask(checker);
        (checker, base, answer)
    }

    /// The next exchange that must be accepted, with its log.
    pub fn base(&mut self) -> Base {
        loop {
            let (checker, base, answer) = self.call();
            if answer.obstacles.is_empty() {
                self.checkers[checker].state = answer.exchange.new_state;
                return base;
            }
        }
    }
}

impl Iterator for Chain {
    type Item = Case;

    fn next(&mut self) -> Option<Case> {
        let (checker, base, answer) = self.call();
        if answer.obstacles.is_empty() && self.random.one_in(4) {
            return Some(refused(&base, &mut self.random));
        }
        let case = case(base.name, &answer);
        if answer.obstacles.is_empty() {
            self.checkers[checker].state = answer.exchange.new_state;
        }
        Some(case)
    }
}

/// A number of a random count of bits, so that small ones are not rare, and at least 1.
fn power(random: &mut Random, bits: u64) -> u64 {
    let bits = random.below(bits);
    (1 << bits) + random.below(1 << bits)
}

fn checker(random: &mut Random, index: u8) -> Checker {
    let length = *random.pick(&[0, 1, 5, 5, 20, limits::LABEL - 1]);
    let mut label = random.bytes(length);
    label.push(index);
    if length == 0 && index == 0 {
        label.clear();
    }
    Checker {
        state: State::new(&label),
        next_version: 0,
    }
}

fn settings(random: &mut Random) -> Settings {
    let bound = *random.pick(&[0, 1_000, 100_000, u64::MAX]);
    let key = random.between(1, 70) as usize;
    Settings {
        suite: 1,
        mode: 1,
        signature_key: random.bytes(key),
        vrf_key: random.bytes(33),
        max_ahead: bound,
        max_behind: bound,
        monitoring_window: random.next(),
        maximum_lifetime: random.one_in(2).then(|| random.next()),
    }
}

/// The call with one thing changed that must be refused.
fn refused(base: &Base, random: &mut Random) -> Case {
    loop {
        let family = random.pick(&damage::FAMILIES);
        let mut damages = family(base);
        damages.retain(|damage| damage.number > 0);
        if !damages.is_empty() {
            return random.pick(&damages).apply(base);
        }
    }
}
