//! Several things wrong at once: the lowest number is the answer (paper 01, Sixteen numbers).

use crate::base::{self, Base};
use crate::case::{Answer, Case, Inputs};
use crate::damage::{apply_all, Damage, Damages, FAMILIES};
use crate::limits;
use honest_log::log_tree::full_subtrees;
use honest_log::model::Kind;
use honest_log::Random;

/// One damage for each number that the base allows, each of which leaves the others as they are.
fn one_each(base: &Base) -> Vec<Damage> {
    let mut list = vec![
        Damage::on_inputs(1, "short identifier", |inputs| {
            inputs.identifier.truncate(15)
        }),
        Damage::on_exchange(2, "another suite", |exchange| exchange.settings.suite = 2),
        Damage::on_inputs(3, "state text with a line more", |inputs| {
            inputs.state.extend(b"end\n")
        }),
        Damage::on_inputs(4, "sheet with a byte more", |inputs| inputs.sheet.push(0)),
        Damage::on_inputs(5, "response with a byte more", |inputs| {
            inputs.response.push(0)
        }),
        Damage::on_inputs(6, "another identifier", |inputs| inputs.identifier[0] ^= 1),
        Damage::on_exchange(7, "size 0", |exchange| exchange.response.size = 0),
        Damage::on_exchange(9, "a spare node", |exchange| {
            exchange.response.nodes.push([1; 32])
        }),
        Damage::on_inputs(15, "signed text off by a bit", |inputs| {
            if let Some(last) = inputs.signed.last_mut() {
                *last ^= 1;
            }
        }),
    ];
    if !base.exchange.response.steps.is_empty() {
        list.on_exchange(10, "sheet without its first version", |exchange| {
            exchange.sheet.remove(0);
        });
    }
    list.extend(clock(base));
    list.extend(lookups(base));
    list.extend(kept_value(base));
    if base.exchange.kind == Kind::Search {
        list.extend(of_search(base));
    }
    list.sort_by_key(|damage| damage.number);
    list
}

/// A clock out of bounds, where they leave one.
fn clock(base: &Base) -> Option<Damage> {
    let settings = &base.exchange.settings;
    let time = base.exchange.new_state.time;
    let late = time
        .checked_add(settings.max_behind)
        .filter(|last| *last < u64::MAX);
    let clock = match late {
        Some(_) => u64::MAX,
        None if time > settings.max_ahead => 0,
        None => return None,
    };
    Some(Damage::on_inputs(
        11,
        "a clock out of bounds",
        move |inputs| inputs.clock = clock,
    ))
}

/// A prefix root that no lookup leads to, where there is a lookup.
fn lookups(base: &Base) -> Option<Damage> {
    let entries = &base.exchange.response.entries;
    let at = entries.iter().position(|entry| !entry.lookups.is_empty())?;
    Some(Damage::on_exchange(
        12,
        "another prefix root",
        move |exchange| {
            exchange.response.entries[at].prefix_root[5] ^= 1;
        },
    ))
}

/// A kept value that the shown entries contradict, where there is one.
fn kept_value(base: &Base) -> Option<Damage> {
    let entries = &base.exchange.response.entries;
    let shown =
        |range: &std::ops::Range<u64>| entries.iter().any(|entry| range.contains(&entry.position));
    let at = full_subtrees(base.exchange.state.size)
        .iter()
        .position(shown)?;
    Some(Damage::on_exchange(
        14,
        "another kept value",
        move |exchange| {
            exchange.state.values[at][0] ^= 1;
        },
    ))
}

/// A pair above the target, a ladder that stops, no room.
fn of_search(base: &Base) -> Vec<Damage> {
    let mut list = vec![Damage::on_exchange(
        13,
        "last ladder stops before its end",
        |exchange| {
            if let Some(entry) = exchange.response.entries.last_mut() {
                entry.lookups.pop();
            }
        },
    )];
    let target = base.exchange.response.target.as_ref();
    if !base.exchange.state.pairs.is_empty()
        && target.is_some_and(|target| target.version < limits::VERSION)
    {
        list.on_exchange(8, "a pair above the target", |exchange| {
            exchange.state.pairs[0].1 = limits::VERSION;
        });
    }
    if target.is_some_and(|target| !target.value.is_empty()) {
        list.on_room(16, "no room", 0);
    }
    list
}

/// Several damages to the first search and the first monitoring, and to a monitoring of a log that
/// lost a version.
pub fn all() -> Vec<Case> {
    let search = base::searches().remove(0);
    let monitoring = base::monitorings().remove(0);
    let mut list = fixed(&search, None);
    list.extend(fixed(&monitoring, None));
    let output = monitoring.log.output(monitoring.label(), 0);
    let tree = monitoring.log.entry(5).prefix_tree.without(&output);
    let log = monitoring.log.with_prefix_tree(5, tree);
    if let Some(exchange) = monitoring.asked_of(&log) {
        let name = "monitoring of a log that lost a version".to_string();
        let lost = Base {
            name,
            log,
            exchange,
            ..monitoring
        };
        list.extend(fixed(
            &lost,
            Some(Damage::on_exchange(13, "a lost version", |_| {})),
        ));
    }
    list
}

/// Every two of them, all from each on, and some random choices. What is already wrong with the
/// base is told as a damage that changes nothing.
pub fn fixed(base: &Base, already: Option<Damage>) -> Vec<Case> {
    let damages = one_each(base);
    let already = already.as_ref();
    let together = |chosen: &[&Damage]| apply_all(&[chosen, already.as_slice()].concat(), base);
    let mut list = Vec::new();
    for (at, first) in damages.iter().enumerate() {
        for second in &damages[at + 1..] {
            list.push(together(&[first, second]));
        }
        list.push(together(&damages[at..].iter().collect::<Vec<_>>()));
    }
    let mut random = Random::new(damages.len() as u64);
    for _ in 0..100 {
        list.push(together(&some(&damages, &mut random)));
    }
    list
}

/// A random choice of one for each number.
pub fn any(base: &Base, random: &mut Random) -> Case {
    apply_all(&some(&one_each(base), random), base)
}

fn some<'a>(damages: &'a [Damage], random: &mut Random) -> Vec<&'a Damage> {
    let mut chosen: Vec<&Damage> = damages.iter().filter(|_| random.one_in(3)).collect();
    if chosen.is_empty() {
        chosen.push(random.pick(damages));
    }
    chosen
}

/// Two random damages of any family that change different inputs, if the choice falls so.
pub fn two(base: &Base, random: &mut Random) -> Option<Case> {
    let honest = Case::of(&base.name, 0, &base.exchange);
    let first = one(base, random)?;
    let second = one(base, random)?;
    merged(&honest, &first, &second)
}

fn one(base: &Base, random: &mut Random) -> Option<Case> {
    let damages = random.pick(&FAMILIES)(base);
    let damage = damages.get(random.below(damages.len().max(1) as u64) as usize)?;
    (damage.number > 0).then(|| damage.apply(base))
}

fn number(case: &Case) -> u8 {
    case.answer.as_ref().map_or(0, Answer::number)
}

/// Both changes at once. Two of one number could undo each other, and so could a lookup's version
/// shown as there above the target, whose path then is not tried, with a damaged path.
fn merged(honest: &Case, first: &Case, second: &Case) -> Option<Case> {
    let numbers = [number(first), number(second)];
    let lowest = *numbers.iter().min()?;
    if numbers[0] == numbers[1] || (lowest == 12 && numbers.contains(&13)) {
        return None;
    }
    let (base, one, two) = (&honest.inputs, &first.inputs, &second.inputs);
    let inputs = Inputs {
        kind: either(&base.kind, &one.kind, &two.kind)?,
        identifier: either(&base.identifier, &one.identifier, &two.identifier)?,
        clock: either(&base.clock, &one.clock, &two.clock)?,
        response: either(&base.response, &one.response, &two.response)?,
        settings: either(&base.settings, &one.settings, &two.settings)?,
        state: either(&base.state, &one.state, &two.state)?,
        sheet: either(&base.sheet, &one.sheet, &two.sheet)?,
        signed: either(&base.signed, &one.signed, &two.signed)?,
    };
    Some(Case {
        name: format!("{}; {}", first.name, second.name),
        inputs,
        room: either(&honest.room, &first.room, &second.room)?,
        answer: Some(Answer::Refused(lowest)),
    })
}

/// The changed one of two, or what both left as it was.
fn either<T: Clone + PartialEq>(honest: &T, first: &T, second: &T) -> Option<T> {
    if first == honest {
        Some(second.clone())
    } else if second == honest {
        Some(first.clone())
    } else {
        None
    }
}
