//! Small cases for numbers 9 to 16: what is shown, how it hashes, and what is done with it.

use super::shapes::{exchanged, Choice, AGAIN, BOTH, FIRST, IDLE, MOVING, THIRD};
use super::{addition, question, settings, LABEL};
use crate::case::Case;
use crate::damage::leaves::misplaced;
use crate::damage::{forks, ladders, lookups, paths, rooms, shape, shape_monitor, sheet};
use crate::damage::{signed, sizes, times};
use crate::limits;
use honest_log::{Log, VrfRule};

pub const CHOICES: [Choice; 28] = [
    (
        FIRST,
        shape::damages,
        &[
            "step 1 left out",
            "steps 0 and 1 swapped",
            "a commitment at 0",
            "entry 0 left out",
            "entry 0 one position on",
            "1 spare nodes of zero bytes",
        ],
    ),
    (
        FIRST,
        lookups::damages,
        &[
            "no lookups at 0",
            "lookup 0 at 0 left out",
            "lookups 0 and 1 at 0 swapped",
            "ladder begun again at the last entry",
        ],
    ),
    (
        THIRD,
        shape::damages,
        &["node 0 left out", "entry 0 doubled"],
    ),
    (
        MOVING,
        shape::damages,
        &["step 0 left out", "entry 0 shown too"],
    ),
    (MOVING, shape_monitor::damages, &["no commitment at 0"]),
    (
        MOVING,
        shape_monitor::damages,
        &["last lookup at 1 left out"],
    ),
    (IDLE, shape_monitor::damages, &["a lookup of 0 more at 1"]),
    (
        IDLE,
        shape_monitor::damages,
        &["a step for 0 that no entry looks up"],
    ),
    (FIRST, sheet::damages, &["sheet without version 0"]),
    (
        FIRST,
        sheet::damages,
        &["sheet without version 1", "empty sheet"],
    ),
    (MOVING, sheet::damages, &["sheet without version 0"]),
    (MOVING, sheet::damages, &["sheet with 1 for version 0"]),
    (
        FIRST,
        times::damages,
        &[
            "earliest clock, 0",
            "latest clock, 4",
            "clock after the latest, 5",
            "no bounds, clock one too early",
            "clock at its end, 18446744073709551615",
        ],
    ),
    (
        THIRD,
        times::damages,
        &[
            "kept time before an old entry's, 1",
            "kept time after a new entry's, 4",
        ],
    ),
    (IDLE, times::damages, &["clock before the earliest, 0"]),
    (
        FIRST,
        paths::damages,
        &[
            "shown as no, version 0 at 0",
            "shown as nl of the searched leaf, version 0 at 0",
            "a zero sibling behind the last, version 0 at 0",
            "other output off by bit 255, version 1 at 0",
            "other commitment off by a bit, version 1 at 0",
            "prefix root at 0 off by its last bit",
            "opening off by its first bit",
            "value off by its last bit",
            "no value",
            "output of 0 in the sheet off by bit 255",
        ],
    ),
    (MOVING, paths::damages, &["commitment of 0 off by a bit"]),
    (MOVING, paths::damages, &["shown as no, version 0 at 1"]),
    (
        THIRD,
        paths::damages,
        &["a zero sibling behind the last, version 0 at 1"],
    ),
    (
        FIRST,
        ladders::damages,
        &[
            "ladder at 0 ended after 1",
            "1 in at 0 with 0 made-up siblings",
        ],
    ),
    (THIRD, ladders::damages, &["ladder at 1 continued to 1"]),
    (AGAIN, forks::damages, &["kept value 0 off by its last bit"]),
    (AGAIN, forks::damages, &["kept value 0 all zero"]),
    (THIRD, forks::damages, &["node 0 off by a bit"]),
    (
        MOVING,
        forks::damages,
        &["kept value 0 off by its first bit"],
    ),
    (
        FIRST,
        signed::damages,
        &[
            "signed text off in byte 0",
            "signed text off in byte 71",
            "empty signed text",
            "signed text of one entry more",
            "signed text with a zero byte more",
        ],
    ),
    (AGAIN, rooms::damages, &["room of 0 for a value of 1"]),
    (
        FIRST,
        rooms::damages,
        &["room as long as the value", "room of 0 for a value of 1"],
    ),
];

/// Logs that are really so, on either side of numbers 7, 11, 13, 14 and 15.
pub fn other_logs() -> Vec<Case> {
    let mut list = sizes::cases(&exchanged(IDLE));
    list.extend(times::cases(&exchanged(IDLE)));
    list.extend(forks::cases(&exchanged(IDLE)));
    for exchange in [FIRST, BOTH, MOVING] {
        list.extend(ladders::cases(&exchanged(exchange)));
    }
    list
}

/// Other leaves that are where version 1 would be, or elsewhere.
pub fn other_leaves() -> Vec<Case> {
    let mut list = Vec::new();
    for (depth, shared, number) in [(1, 1, 0), (1, 0, 12), (2, 1, 12)] {
        let mut exchange = misplaced(depth, shared);
        exchange.settings = settings();
        let name = format!("small other leaf at depth {depth} that shares {shared}");
        list.push(Case::of(name, number, &exchange));
    }
    list
}

/// 48 pairs of a log of 64 equal entries: a new position is one too many, an old one is not.
pub fn full_maps() -> Vec<Case> {
    let mut log = Log::new(VrfRule::Hashed { seed: 1 });
    log.append_run(1, &[addition(0)], 64);
    let mut list = Vec::new();
    for (name, number, first) in [("new", 16, 0), ("old", 0, 16)] {
        let positions = first..first + limits::PAIRS as u64;
        let pairs: Vec<(u64, u32)> = positions.map(|position| (position, 0)).collect();
        let question = question(&log, log.state(LABEL, 64, &pairs), 64);
        let answer = log.search(&question).expect("version 0 is there");
        let name = format!("small search with 48 pairs, {name} position");
        list.push(Case::of(name, number, &answer.exchange));
    }
    list
}
