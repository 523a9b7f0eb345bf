//! Number 3: state texts in their form that give no valid state (paper 01, What a call is given).

use super::Damage;
use crate::base::Base;
use crate::limits;
use honest_log::model::State;

pub fn damages(base: &Base) -> Vec<Damage> {
    let state = &base.exchange.state;
    let mut list = sizes();
    list.extend(values(state));
    list.extend(pairs(state));
    list.extend(own_pairs(state));
    list.extend(labels());
    list
}

/// A change that leaves the text in form and the state invalid.
fn on_state(name: impl Into<String>, change: impl Fn(&mut State) + 'static) -> Damage {
    Damage::on_exchange(3, name, move |exchange| change(&mut exchange.state))
}

fn sizes() -> Vec<Damage> {
    let with_size = |size: u64| {
        on_state(
            format!("state of size {size} with its values"),
            move |state| {
                state.size = size;
                state.values = vec![[7; limits::DIGEST]; size.count_ones() as usize];
            },
        )
    };
    vec![
        with_size(limits::SIZE + 1),
        with_size(limits::SIZE * 2),
        with_size(1 << 63),
        with_size(u64::MAX),
        on_state("state of size 0 with a time", |state| {
            *state = State::new(&state.label);
            state.time = 1;
        }),
        on_state("state of size 0 with a value", |state| {
            *state = State::new(&state.label);
            state.values.push([0; limits::DIGEST]);
        }),
        on_state("state of size 0 with a pair", |state| {
            *state = State::new(&state.label);
            state.pairs.push((0, 0));
        }),
        on_state("state of size 0 with time, values and pairs", |state| {
            state.size = 0;
            state.time = 1;
            state.pairs.push((1, 0));
        }),
    ]
}

/// As many values as the size has one bits, no more and no fewer.
fn values(state: &State) -> Vec<Damage> {
    let mut list = vec![
        on_state("state with a value more", |state| {
            state.values.push([0; limits::DIGEST])
        }),
        on_state("state with 40 values more", |state| {
            state.values.extend([[1; limits::DIGEST]; 40])
        }),
        on_state("state with a value fewer, of size 7", |state| {
            (state.size, state.pairs) = (7, Vec::new());
            state.values = vec![[1; limits::DIGEST]; 2];
        }),
        on_state("state without values, of size 1", |state| {
            (state.size, state.pairs, state.values) = (1, Vec::new(), Vec::new());
        }),
    ];
    for at in 0..state.values.len() {
        list.push(on_state(
            format!("state without value {at}"),
            move |state| {
                state.values.remove(at);
            },
        ));
    }
    list
}

/// The state's own pairs with one thing other, and nothing else.
fn own_pairs(state: &State) -> Vec<Damage> {
    let mut list = Vec::new();
    for at in 0..state.pairs.len() {
        list.push(on_state(
            format!("state's pair {at} of version 2^32 - 1"),
            move |state| {
                state.pairs[at].1 = u32::MAX;
            },
        ));
        list.push(on_state(
            format!("state's pair {at} at its size"),
            move |state| {
                state.pairs[at].0 = state.size;
            },
        ));
    }
    for at in 1..state.pairs.len() {
        list.push(on_state(
            format!("state's pair {at} before the last"),
            move |state| {
                state.pairs.swap(at - 1, at);
            },
        ));
        list.push(on_state(
            format!("state's pair {at} where the last is"),
            move |state| {
                state.pairs[at].0 = state.pairs[at - 1].0;
            },
        ));
    }
    list
}

/// Maps that are not valid in a state of at least 64 entries.
fn pairs(state: &State) -> Vec<Damage> {
    let size = state.size;
    let with = |name: &str, pairs: &'static [(u64, u32)]| {
        on_state(name, move |state| {
            state.size = state.size.max(64);
            state.values = vec![[7; limits::DIGEST]; state.size.count_ones() as usize];
            state.pairs = pairs.to_vec();
        })
    };
    let mut list = vec![
        on_state("pair at the state's size", move |state| {
            state.pairs.push((size, 0))
        }),
        on_state("pair above the state's size", move |state| {
            state.pairs.push((size + 1, 0))
        }),
        on_state("pair at 2^64 - 1", |state| state.pairs.push((u64::MAX, 0))),
        with("two pairs at one position", &[(5, 1), (5, 2)]),
        with("one pair twice", &[(5, 1), (5, 1)]),
        with("pairs falling", &[(6, 1), (5, 2)]),
        with("last of three pairs falling", &[(3, 1), (5, 2), (4, 3)]),
        with("pair of version 2^32 - 1", &[(5, u32::MAX)]),
        with("second pair of version 2^32 - 1", &[(5, 0), (6, u32::MAX)]),
    ];
    for count in [limits::PAIRS as u64 + 1, limits::PAIRS as u64 + 2, 64] {
        list.push(on_state(format!("{count} pairs"), move |state| {
            (state.size, state.values) = (64, vec![[7; limits::DIGEST]]);
            state.pairs = (0..count).map(|position| (position, 0)).collect();
        }));
    }
    list
}

fn labels() -> Vec<Damage> {
    [256, 257, 1_000]
        .into_iter()
        .map(|length| {
            Damage::on_exchange(
                3,
                format!("label of {length} bytes in state"),
                move |exchange| {
                    exchange.state.label = vec![b'a'; length];
                },
            )
        })
        .collect()
}
