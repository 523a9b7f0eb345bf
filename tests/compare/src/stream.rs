//! An endless stream of cases: chains of calls, damage at random places, several damages, and
//! random changes; mostly small and middle answers, a large one now and then.

use crate::base::Base;
use crate::case::Case;
use crate::damage::{lost, many_versions, patterns, FAMILIES, LOGS};
use crate::honest::case;
use crate::honest::chain::Chain;
use crate::honest::lengths::{monitoring_of_length, search_of_length};
use crate::honest::{long_paths, maps};
use crate::limits;
use crate::{random, several};
use honest_log::Random;

/// How many cases come from one chain, and from one base.
const CHAIN_LENGTH: u64 = 24;
const BASE_USES: u64 = 12;
/// The most long paths of a base, and of a call that is made once.
const FEW_PATHS: u64 = 2;
const MANY_PATHS: u64 = 8;

pub struct Stream {
    random: Random,
    chain: Chain,
    base: Base,
    other: Base,
    /// Calls still to come from the chain, and uses of the base.
    chain_left: u64,
    base_left: u64,
}

impl Stream {
    pub fn new(seed: u64) -> Stream {
        let mut random = Random::new(seed ^ 0x57ae_a300);
        let chain = Chain::new(random.next());
        let base = Chain::new(random.next()).base();
        let other = Chain::new(random.next()).base();
        Stream {
            random,
            chain,
            base,
            other,
            chain_left: CHAIN_LENGTH,
            base_left: BASE_USES,
        }
    }

    /// The next call of the chain; a new chain begins when one is used up.
    fn chain_call(&mut self) -> Option<Case> {
        if self.chain_left == 0 {
            self.chain = Chain::new(self.random.next());
            self.chain_left = CHAIN_LENGTH;
        }
        self.chain_left -= 1;
        self.chain.next()
    }

    /// Another base when one is used up, with a random map or from later in a chain of its own.
    fn renew_base(&mut self) {
        if self.base_left == 0 {
            let base = match self.random.below(12) {
                0..4 => maps::random(&mut self.random),
                4 => long_paths::random(&mut self.random, FEW_PATHS),
                _ => self.later_call(),
            };
            self.other = std::mem::replace(&mut self.base, base);
            self.base_left = BASE_USES;
        }
        self.base_left -= 1;
    }

    fn later_call(&mut self) -> Base {
        let mut chain = Chain::new(self.random.next());
        for _ in 0..self.random.below(12) {
            chain.base();
        }
        chain.base()
    }

    /// A damage of any family; within the family each number is as likely as the others.
    fn damaged(&mut self) -> Option<Case> {
        let mut damages = self.random.pick(&FAMILIES)(&self.base);
        let mut numbers: Vec<u8> = damages.iter().map(|damage| damage.number).collect();
        numbers.sort();
        numbers.dedup();
        if numbers.is_empty() {
            return None;
        }
        let number = *self.random.pick(&numbers);
        damages.retain(|damage| damage.number == number);
        Some(self.random.pick(&damages).apply(&self.base))
    }

    fn of_another_log(&mut self) -> Option<Case> {
        let mut cases = self.random.pick(&LOGS)(&self.base);
        let at = self.random.below(cases.len().max(1) as u64) as usize;
        (at < cases.len()).then(|| cases.swap_remove(at))
    }

    /// Monitoring of many pairs with long paths.
    fn many_paths(&mut self) -> Case {
        let base = long_paths::random(&mut self.random, MANY_PATHS);
        Case::of(&base.name, 0, &base.exchange)
    }

    /// A long answer, mostly to a search, up to what the library reads.
    fn large(&mut self) -> Case {
        let length = match self.random.below(3) {
            0 => self.random.between(40_000, 100_000),
            1 => self.random.between(200_000, 1_000_000),
            _ => limits::RESPONSE as u64 - self.random.below(3_000),
        };
        let answer = match self.random.below(4) {
            0 => monitoring_of_length(length as usize),
            _ => search_of_length(length as usize),
        };
        case(format!("call answered in {length} bytes"), &answer)
    }
}

impl Iterator for Stream {
    type Item = Case;

    fn next(&mut self) -> Option<Case> {
        loop {
            let choice = self.random.below(1_000);
            if choice < 350 {
                return self.chain_call();
            }
            self.renew_base();
            let made = match choice {
                350..640 => self.damaged(),
                640..690 => self.of_another_log(),
                690..700 => lost::random(&self.base, &mut self.random),
                700..720 => Some(patterns::random(&mut self.random)),
                720..750 => Some(several::any(&self.base, &mut self.random)),
                750..800 => several::two(&self.base, &mut self.random),
                800..996 => Some(random::changed(&self.base, &self.other, &mut self.random)),
                996 => Some(many_versions::random(&mut self.random)),
                997 => Some(self.many_paths()),
                _ => Some(self.large()),
            };
            if made.is_some() {
                return made;
            }
        }
    }
}
