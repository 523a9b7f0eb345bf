//! Small chains: each call gets the state that the last accepted one left, refused ones between
//! them change nothing.

use super::{log, settings, LABEL};
use crate::base::Base;
use crate::case::Case;
use crate::damage::{asked, forks, paths, times, Damage};
use honest_log::model::{Kind, State};
use honest_log::{Log, Question};

/// A checker on its way through a log.
struct Way<'a> {
    name: &'a str,
    log: Log,
    state: State,
    list: Vec<Case>,
}

impl Way<'_> {
    fn new<'a>(name: &'a str, versions: &[u32]) -> Way<'a> {
        Way {
            name,
            log: log(versions),
            state: State::new(LABEL),
            list: Vec::new(),
        }
    }

    fn base(&self, kind: Kind, size: u64) -> Base {
        let question = Question {
            identifier: vec![self.list.len() as u8; 16],
            clock: self.log.entry(size - 1).time,
            settings: settings(),
            state: self.state.clone(),
            size,
        };
        let name = format!(
            "{}, call {}: {} of {size}",
            self.name,
            self.list.len(),
            kind.word()
        );
        Base::new(&name, kind, &self.log, question)
    }

    /// An accepted call.
    fn call(mut self, kind: Kind, size: u64) -> Self {
        let base = self.base(kind, size);
        self.list.push(Case::of(&base.name, 0, &base.exchange));
        self.state = base.exchange.new_state;
        self
    }

    /// A call that is refused: the first damage of a family that has the number.
    fn refused(
        mut self,
        kind: Kind,
        size: u64,
        family: fn(&Base) -> Vec<Damage>,
        number: u8,
    ) -> Self {
        let base = self.base(kind, size);
        let damages = family(&base);
        let damage = damages.iter().find(|damage| damage.number == number);
        self.list.extend(damage.map(|damage| damage.apply(&base)));
        self
    }
}

pub fn cases() -> Vec<Case> {
    use Kind::{Monitor, Search};
    let steady = Way::new("small chain of one version", &[1, 1, 1, 1])
        .call(Monitor, 1)
        .call(Search, 1)
        .refused(Monitor, 2, asked::damages, 6)
        .call(Monitor, 2)
        .refused(Monitor, 3, forks::damages, 14)
        .call(Search, 3)
        .call(Monitor, 4)
        .call(Monitor, 4);
    let late = Way::new("small chain of a late label", &[0, 0, 1, 1])
        .call(Monitor, 2)
        .refused(Search, 3, times::damages, 11)
        .call(Search, 3)
        .refused(Monitor, 4, paths::damages, 12)
        .call(Monitor, 4)
        .call(Search, 4);
    [steady.list, late.list].concat()
}
