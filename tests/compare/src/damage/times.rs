//! Number 11: times that fall, disagree with the kept one, or are out of the clock's bounds, each
//! at its bound and one past it (paper 01, Sixteen numbers).

use super::Damage;
use crate::base::Base;
use crate::case::Case;
use honest_log::model::Entry;

pub fn damages(base: &Base) -> Vec<Damage> {
    let mut list = clocks(base);
    list.extend(wide_bounds(base));
    list.extend(kept_times(base));
    list
}

/// The time of the last entry.
fn last_time(base: &Base) -> u64 {
    base.exchange.new_state.time
}

fn with_clock(number: u8, name: &str, clock: Option<u64>) -> Option<Damage> {
    let clock = clock?;
    Some(Damage::on_exchange(
        number,
        format!("{name}, {clock}"),
        move |exchange| exchange.clock = clock,
    ))
}

fn clocks(base: &Base) -> Vec<Damage> {
    let time = last_time(base);
    let (ahead, behind) = (
        base.exchange.settings.max_ahead,
        base.exchange.settings.max_behind,
    );
    let first = time.checked_sub(ahead);
    let last = time.checked_add(behind);
    [
        with_clock(0, "earliest clock", Some(first.unwrap_or(0))),
        with_clock(
            11,
            "clock before the earliest",
            first.and_then(|clock| clock.checked_sub(1)),
        ),
        with_clock(0, "latest clock", Some(last.unwrap_or(u64::MAX))),
        with_clock(
            11,
            "clock after the latest",
            last.and_then(|clock| clock.checked_add(1)),
        ),
        with_clock(11, "clock at 0", (time > ahead).then_some(0)),
        with_clock(
            11,
            "clock at its end",
            last.filter(|last| *last < u64::MAX).map(|_| u64::MAX),
        ),
    ]
    .into_iter()
    .flatten()
    .collect()
}

/// A number, what it is about, both bounds and a clock.
type Bounds = (u8, &'static str, u64, u64, u64);

/// The end of every number of eight bytes.
const END: u64 = u64::MAX;

/// Bounds of nothing, and bounds whose sums pass 2^64.
fn wide_bounds(base: &Base) -> Vec<Damage> {
    let time = last_time(base);
    let mut list: Vec<Bounds> = vec![
        (0, "no bounds, clock at the last time", 0, 0, time),
        (0, "ahead without end, clock at 0", END, 0, 0),
        (0, "behind without end, clock at its end", 0, END, END),
        (0, "both bounds without end", END, END, time),
        (0, "ahead that passes 2^64 with the clock", END, END, END),
    ];
    if let Some(before) = time.checked_sub(1) {
        list.push((11, "no bounds, clock one too early", 0, END, before));
        list.push((11, "ahead one too small for clock 0", before, END, 0));
        list.push((0, "ahead just enough for clock 0", time, 0, 0));
    }
    if let Some(after) = time.checked_add(1) {
        let far = END - time;
        list.push((11, "no bounds, clock one too late", END, 0, after));
        list.push((11, "behind one too small for the end", END, far - 1, END));
        list.push((0, "behind just enough for the end", 0, far, END));
    }
    list.into_iter().map(bounded).collect()
}

fn bounded((number, name, ahead, behind, clock): Bounds) -> Damage {
    Damage::on_exchange(number, name, move |exchange| {
        exchange.settings.max_ahead = ahead;
        exchange.settings.max_behind = behind;
        exchange.clock = clock;
    })
}

/// The kept time against the shown entries on either side of the old size.
fn kept_times(base: &Base) -> Vec<Damage> {
    let size = base.exchange.state.size;
    if size == 0 {
        return Vec::new();
    }
    let (old, new): (Vec<&Entry>, Vec<&Entry>) = base
        .exchange
        .response
        .entries
        .iter()
        .partition(|entry| entry.position < size);
    let mut list = Vec::new();
    if let Some(latest) = old.iter().map(|entry| entry.time).max() {
        list.push((0, "kept time as late as the latest old entry", latest));
        if latest > 0 {
            list.push((11, "kept time before an old entry's", latest - 1));
            list.push((11, "kept time 0", 0));
        }
    }
    match new.iter().map(|entry| entry.time).min() {
        Some(u64::MAX) | None => {
            list.push((0, "kept time at its end and nothing earlier", u64::MAX))
        }
        Some(earliest) => {
            list.push((0, "kept time as early as the earliest new entry", earliest));
            list.push((11, "kept time after a new entry's", earliest + 1));
            list.push((11, "kept time at its end", u64::MAX));
        }
    }
    let damage = |(number, name, time): (u8, &str, u64)| {
        Damage::on_exchange(number, format!("{name}, {time}"), move |exchange| {
            exchange.state.time = time
        })
    };
    list.into_iter().map(damage).collect()
}

/// Real logs in which one shown entry's time touches a neighbour's, or passes it by one.
pub fn cases(base: &Base) -> Vec<Case> {
    let state = &base.exchange.state;
    let shown: Vec<(u64, u64)> = base
        .exchange
        .response
        .entries
        .iter()
        .map(|entry| (entry.position, entry.time))
        .collect();
    let mut list = Vec::new();
    let mut with_time = |number: u8, position: u64, time: Option<u64>, what: &str| {
        let Some(time) = time else { return };
        let log = base.log.with_time(position, time);
        if let Some(exchange) = base.asked_of(&log) {
            let name = format!("{}: entry {position}'s time {what}", base.name);
            list.push(Case::of(name, number, &exchange));
        }
    };
    for pair in shown.windows(2) {
        let ((left, earlier), (right, later)) = (pair[0], pair[1]);
        let kept = if right >= state.size { state.time } else { 0 };
        let lowest = earlier.max(kept);
        with_time(0, right, Some(lowest), "as early as may be");
        with_time(11, right, lowest.checked_sub(1), "one too early");
        let highest = if left + 1 < state.size {
            later.min(state.time)
        } else {
            later
        };
        with_time(0, left, Some(highest), "as late as may be");
        with_time(11, left, highest.checked_add(1), "one too late");
    }
    list
}
