//! Numbers 9 and 10 in monitoring that asks for as many versions as a sheet has records, and for
//! more (paper 01, Sixteen numbers).

use super::{apply_all, Damage, Damages};
use crate::base::Base;
use crate::case::Case;
use crate::honest::many_versions::{asking, case, without_siblings, MOST, OF_ALL_PAIRS};
use honest_log::Random;

/// What is wrong before number 12.
fn damages(base: &Base) -> Vec<Damage> {
    let count = base.response().steps.len();
    let mut places = vec![0, count / 2, MOST - 1, count - 1];
    places.retain(|at| *at < count);
    places.dedup();
    let mut list: Vec<Damage> = places.into_iter().flat_map(of_step).collect();
    list.extend(sheets(base));
    list.extend(shapes(base));
    list
}

/// A step left out, doubled or without its commitment, or its version not in the sheet.
fn of_step(at: usize) -> Vec<Damage> {
    let mut list = Vec::new();
    list.on_response(format!("step {at} left out"), move |response| {
        response.steps.remove(at);
    });
    list.on_response(format!("step {at} doubled"), move |response| {
        response.steps.insert(at, response.steps[at].clone());
    });
    list.on_response(format!("no commitment at step {at}"), move |response| {
        response.steps[at].commitment = None;
    });
    let name = format!("sheet without the version of step {at}");
    list.on_exchange(10, name, move |exchange| {
        let version = exchange.response.steps[at].version;
        exchange.sheet.retain(|record| record.0 != version);
    });
    list
}

/// Other versions in the sheet.
fn sheets(base: &Base) -> Vec<Damage> {
    let steps = base.response().steps.iter();
    let all = steps.map(|step| (step.version, base.log.output(base.label(), step.version)));
    let all: Vec<_> = all.collect();
    let mut list = Vec::new();
    list.on_exchange(10, "empty sheet", |exchange| exchange.sheet.clear());
    if all.len() > MOST {
        let last = all[all.len() - MOST..].to_vec();
        list.on_exchange(
            10,
            "the last 1,024 versions in the sheet",
            move |exchange| {
                exchange.sheet = last.clone();
            },
        );
        list.on_exchange(1, "all versions in the sheet", move |exchange| {
            exchange.sheet = all.clone();
        });
        list.on_exchange(9, "steps for the versions in the sheet alone", |exchange| {
            exchange.response.steps.truncate(exchange.sheet.len());
        });
    }
    list
}

/// A lookup, an entry or a node more or fewer, behind all others.
fn shapes(base: &Base) -> Vec<Damage> {
    let last = base.response().entries.len() - 1;
    let mut list = Vec::new();
    list.on_response("last lookup left out", move |response| {
        response.entries[last].lookups.pop();
    });
    list.on_response("last lookup doubled", move |response| {
        let lookups = &mut response.entries[last].lookups;
        lookups.extend(lookups.last().cloned());
    });
    list.on_response("last entry left out", |response| {
        response.entries.pop();
    });
    list.on_response("a spare node", |response| response.nodes.push([0; 32]));
    if !base.response().nodes.is_empty() {
        list.on_response("last node left out", |response| {
            response.nodes.pop();
        });
    }
    list
}

/// The monitoring without siblings, and what is wrong with it then, as a damage that changes
/// nothing.
fn bare(count: usize, fewer: u64) -> (Base, Damage) {
    let number = if count > MOST { 10 } else { 12 };
    let already = Damage::on_exchange(number, "no siblings", |_| {});
    (without_siblings(asking(count, fewer)), already)
}

pub fn fixed_cases() -> Vec<Case> {
    let mut list = Vec::new();
    for count in [MOST, MOST + 1, OF_ALL_PAIRS] {
        let (base, already) = bare(count, 1);
        list.push(already.apply(&base));
        let damages = damages(&base);
        list.extend(
            damages
                .iter()
                .map(|damage| apply_all(&[damage, &already], &base)),
        );
    }
    list.extend(paths());
    list
}

/// The commitment and the output of the last of 1,024 versions off by a bit.
fn paths() -> Vec<Case> {
    let base = asking(MOST, 1);
    let mut damages = Vec::new();
    damages.on_exchange(12, "last commitment off by a bit", |exchange| {
        let step = exchange.response.steps.last_mut();
        if let Some(commitment) = step.and_then(|step| step.commitment.as_mut()) {
            commitment[31] ^= 1;
        }
    });
    damages.on_exchange(12, "last output off by a bit", |exchange| {
        exchange.sheet[MOST - 1].1[31] ^= 1;
    });
    damages.iter().map(|damage| damage.apply(&base)).collect()
}

/// About 1,024 versions or any number of them, as it is or damaged.
pub fn random(random: &mut Random) -> Case {
    let most = MOST as u64;
    let count = match random.one_in(2) {
        true => random.between(most - 3, most + 3),
        false => random.between(most / 2, OF_ALL_PAIRS as u64),
    };
    let fewer = random.below(2);
    if random.one_in(2) {
        return case(count as usize, fewer);
    }
    let (base, already) = bare(count as usize, fewer);
    let damages = damages(&base);
    apply_all(&[random.pick(&damages), &already], &base)
}
