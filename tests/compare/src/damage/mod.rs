//! One change to an honest exchange, and the number it must be answered with; where a limit is
//! touched, the passing side too. Each file is about some of the sixteen numbers of paper 01.

use crate::base::{self, question, Base, Plan};
use crate::case::{Answer, Case, Inputs};
use crate::limits;
use honest_log::model::{Exchange, Kind, Response};

pub mod asked;
pub mod fields;
pub mod forks;
pub mod invalid;
pub mod ladders;
pub mod leaves;
pub mod lengths;
pub mod lines;
pub mod long_paths;
pub mod lookups;
pub mod lost;
pub mod many_versions;
pub mod paths;
pub mod patterns;
pub mod rooms;
pub mod settings;
pub mod shape;
pub mod shape_monitor;
pub mod sheet;
pub mod signed;
pub mod sizes;
pub mod state;
pub mod times;

type OnExchange = Box<dyn Fn(&mut Exchange)>;
type OnInputs = Box<dyn Fn(&mut Inputs)>;

enum Change {
    /// Before it is written as bytes; the signed text follows it.
    Exchange(OnExchange),
    /// On the bytes.
    Inputs(OnInputs),
    /// The bytes lent for the value.
    Room(usize),
}

/// A change with the number that it leads to; 0 is acceptance.
pub struct Damage {
    pub name: String,
    pub number: u8,
    change: Change,
}

impl Damage {
    pub fn on_exchange(
        number: u8,
        name: impl Into<String>,
        change: impl Fn(&mut Exchange) + 'static,
    ) -> Damage {
        Damage {
            name: name.into(),
            number,
            change: Change::Exchange(Box::new(change)),
        }
    }

    pub fn on_inputs(
        number: u8,
        name: impl Into<String>,
        change: impl Fn(&mut Inputs) + 'static,
    ) -> Damage {
        Damage {
            name: name.into(),
            number,
            change: Change::Inputs(Box::new(change)),
        }
    }

    pub fn on_room(number: u8, name: impl Into<String>, room: usize) -> Damage {
        Damage {
            name: name.into(),
            number,
            change: Change::Room(room),
        }
    }

    pub fn apply(&self, base: &Base) -> Case {
        apply_all(&[self], base)
    }
}

/// Collecting damages.
pub trait Damages {
    fn add(&mut self, damage: Damage);

    fn on_exchange(
        &mut self,
        number: u8,
        name: impl Into<String>,
        change: impl Fn(&mut Exchange) + 'static,
    ) {
        self.add(Damage::on_exchange(number, name, change));
    }

    fn on_inputs(
        &mut self,
        number: u8,
        name: impl Into<String>,
        change: impl Fn(&mut Inputs) + 'static,
    ) {
        self.add(Damage::on_inputs(number, name, change));
    }

    /// A change of the response that leads to number 9.
    fn on_response(&mut self, name: impl Into<String>, change: impl Fn(&mut Response) + 'static) {
        self.on_exchange(9, name, move |exchange| change(&mut exchange.response));
    }

    fn on_room(&mut self, number: u8, name: impl Into<String>, room: usize) {
        self.add(Damage::on_room(number, name, room));
    }
}

impl Damages for Vec<Damage> {
    fn add(&mut self, damage: Damage) {
        self.push(damage);
    }
}

/// Several changes at once: those of the structure before those of the bytes, and the lowest number
/// is expected.
pub fn apply_all(damages: &[&Damage], base: &Base) -> Case {
    let mut exchange = base.exchange.clone();
    for damage in damages {
        if let Change::Exchange(change) = &damage.change {
            change(&mut exchange);
        }
    }
    let mut inputs = Inputs::of(&exchange);
    let mut room = limits::VALUE;
    for damage in damages {
        match &damage.change {
            Change::Exchange(_) => {}
            Change::Inputs(change) => change(&mut inputs),
            Change::Room(lent) => room = *lent,
        }
    }
    let names: Vec<&str> = damages.iter().map(|damage| &damage.name[..]).collect();
    let number = damages
        .iter()
        .map(|damage| damage.number)
        .filter(|number| *number > 0)
        .min();
    Case {
        name: format!("{}: {}", base.name, names.join("; ")),
        inputs,
        room,
        answer: Some(Answer::of(number.unwrap_or(0), &exchange)),
    }
}

/// The kinds of damage that change one exchange, each for any base.
pub const FAMILIES: [fn(&Base) -> Vec<Damage>; 18] = [
    lengths::damages,
    settings::damages,
    state::damages,
    invalid::damages,
    sheet::damages,
    lines::damages,
    fields::damages,
    asked::damages,
    sizes::damages,
    shape::damages,
    lookups::damages,
    shape_monitor::damages,
    times::damages,
    paths::damages,
    ladders::damages,
    forks::damages,
    signed::damages,
    rooms::damages,
];

/// The kinds of damage for which the log itself, or what it is asked, is another one.
pub const LOGS: [fn(&Base) -> Vec<Case>; 6] = [
    sizes::cases,
    shape_monitor::cases,
    times::cases,
    leaves::cases,
    ladders::cases,
    forks::cases,
];

/// The kinds of damage that depend on the shape of an exchange.
const SHAPES: [fn(&Base) -> Vec<Damage>; 9] = [
    sizes::damages,
    shape::damages,
    lookups::damages,
    shape_monitor::damages,
    times::damages,
    paths::damages,
    ladders::damages,
    forks::damages,
    rooms::damages,
];

/// Other values, nodes and numbers of nodes in every small log after every old size.
fn walks() -> Vec<Case> {
    let log = Plan {
        others: 0,
        ..Plan::new(b"fan", 9, &[(0, 0)])
    }
    .log();
    let mut list = Vec::new();
    for size in 1..=9 {
        for old_size in 0..=size {
            let all: Vec<(u64, u32)> = (0..old_size).map(|position| (position, 0)).collect();
            let maps = if old_size > 0 {
                vec![Vec::new(), all]
            } else {
                vec![Vec::new()]
            };
            for pairs in maps {
                let name = format!(
                    "monitor of {size} after {old_size} with {} pairs",
                    pairs.len()
                );
                let question = question(&log, b"fan", old_size, &pairs, size);
                let base = Base::new(&name, Kind::Monitor, &log, question);
                let damages = forks::damages(&base).into_iter().chain(shape::nodes(&base));
                list.extend(damages.map(|damage| damage.apply(&base)));
            }
        }
    }
    list
}

/// Every damage of some bases, those of shape for all, and the logs that are other ones.
pub fn fixed() -> Vec<Case> {
    let mut list = leaves::fixed_cases();
    list.extend(walks());
    list.extend(patterns::fixed_cases());
    list.extend(lost::fixed_cases());
    list.extend(long_paths::fixed_cases());
    list.extend(many_versions::fixed_cases());
    list.extend(shape_monitor::fixed_cases());
    list.extend(rooms::fixed_cases());
    for (at, base) in base::fixed().iter().enumerate() {
        let whole = [0, 3, 6, 9].contains(&at);
        let families = if whole { &FAMILIES[..] } else { &SHAPES[..] };
        for family in families {
            list.extend(family(base).iter().map(|damage| damage.apply(base)));
        }
        for logs in LOGS {
            list.extend(logs(base));
        }
    }
    list
}
