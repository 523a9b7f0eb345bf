//! Names of cases that must be there, and the numbers that they are answered with, 0 being acceptance.

/// The searches among paper 01's examples that a program runs and its easy errors, and the bounds of times, by number.
pub const EXAMPLES: [(u8, &[&str]); 10] = [
    (
        0,
        &[
            "ladder of 2^32 - 2 by 64 versions",
            "search with n = 11 and m = 11",
            "search of 13 after 10: last time at clock + max_ahead",
            "search of 13 after 10: last time at clock - max_behind",
            "search at time 0: last time at clock - max_behind",
            "search at time 2^64 - 1: last time at clock + max_ahead",
            "search of 13 after 10: kept time at an old entry's",
            "search of 13 after 10: kept time at a new entry's",
            "search of 13 after 10: entry 12's time as early as may be",
            "48 pairs and old position",
        ],
    ),
    (6, &["search of 13 after 10: identifier off by one bit"]),
    (7, &["search with n = 10 and m = 11"]),
    (
        8,
        &[
            "ladder of 2^32 - 2: target 2^32 - 1",
            "t = 2^32 - 1 with a ladder of its own",
        ],
    ),
    (9, &["search of 13 after 10: 1 spare nodes of zero bytes"]),
    (
        11,
        &[
            "search of 13 after 10: last time one past clock + max_ahead",
            "search of 13 after 10: last time one before clock - max_behind",
            "search at time 0: last time one before clock - max_behind",
            "search at time 2^64 - 1: last time one past clock + max_ahead",
            "search of 13 after 10: kept time one before an old entry's",
            "search of 13 after 10: kept time one after a new entry's",
            "search of 13 after 10: entry 12's time one too early",
        ],
    ),
    (
        12,
        &[
            "nl that names the searched leaf",
            "nl whose other leaf stands elsewhere",
        ],
    ),
    (
        13,
        &[
            "version 1 is there and 0 is said to be the last",
            "in above t at an early entry",
        ],
    ),
    (14, &["search with kept value 0 contradicted"]),
    (16, &["48 pairs and new position"]),
];

/// Monitoring of every kind of map and log, by number.
pub const MONITORINGS: [(u8, &[&str]); 7] = [
    (
        0,
        &[
            "monitoring of 14 from new",
            "monitoring of 14, empty map",
            "monitor of 1099511627776 after 0, 0 pairs on the frontier",
            "monitoring of 14, all on the frontier",
            "monitor of 1099511627775 after 1099511627775, 40 pairs on the frontier",
            "monitoring of 8, a pair dominated by a farther one",
            "monitoring of 8, a pair dominated by a nearer one",
            "monitoring of 8, three pairs that meet",
            "monitor of 60 after 40: largest of three first",
            "monitor of 60 after 40: largest of three second",
            "monitor of 60 after 40: largest of three last",
            "monitor of 60 after 48: pairs that meet a third",
            "monitor of 60 after 48: pairs that meet a lesser",
            "monitoring of 8, larger versions on the path",
            "monitoring of 8, smaller versions on the path",
            "monitor of 48 after 48, 48 pairs of versions rising",
            "monitor of 100 after 95, 48 pairs of versions falling",
            "monitor of 78 after 78 that asks for 1024 versions",
            "monitor of 78 after 77 that asks for 1024 versions",
            "monitor of 1099511627776 after 549755813889, 12 long paths",
            "monitor of 1099511627775 after 1099511627775, 12 long paths",
            "monitor of 1099511627776 after 1048576, 48 long paths",
            "monitor with a pair of 4294967294",
        ],
    ),
    (
        1,
        &["monitor of 78 after 77 that asks for 1025 versions: all versions in the sheet; no siblings"],
    ),
    (
        9,
        &[
            "monitoring of 14, empty map: a step for 0 that no entry looks up",
            "monitoring of 8, a pair dominated by a farther one: a true step for 2 that no entry looks up",
            "monitoring of 8, a pair dominated by a nearer one: a true step for 2 that no entry looks up",
            "monitoring of 8, a pair dominated by a farther one: step 3 left out",
            "monitoring of 8, a pair dominated by a farther one: lookups [0, 1, 2] at 3",
            "monitoring of 8, a pair dominated by a farther one: answered for a map whose pair at 0 is left out",
            "monitoring of 8, larger versions on the path: a pair's own entry 7 looked up",
            "monitoring of 8, smaller versions on the path: lookups [0, 1, 2] at 7",
            "monitoring of 14 after 10: a lookup of 0 more at 5",
            "monitoring of 14 after 10: last lookup at 5 left out",
            "monitoring of 14 after 10: lookups 0 and 1 at 5 swapped",
            "monitoring of 14 after 10: steps falling",
            "monitoring of 14 after 10: step 0 doubled",
            "monitoring of 14 after 10: no commitment at 0",
            "monitoring of version 2^32 - 2: a true step for 4294967295 that no entry looks up",
            "monitoring of version 2^32 - 2: a true step for 4294967295 and a lookup at the last entry",
            "monitor of 78 after 77 that asks for 1025 versions: steps for the versions in the sheet alone; no siblings",
            "monitor of 96 after 95 that asks for 1279 versions: step 1278 left out; no siblings",
            "monitor of 96 after 95 that asks for 1279 versions: no commitment at step 1278; no siblings",
            "monitor of 48 long paths, 1633 entries and no nodes",
        ],
    ),
    (
        10,
        &[
            "monitor of 78 after 77 that asks for 1024 versions: sheet without the version of step 1023; no siblings",
            "monitor of 78 after 77 that asks for 1025 versions",
            "monitor of 96 after 96 that asks for 1279 versions",
        ],
    ),
    (
        12,
        &[
            "a lost version's place empty: sibling 0 off by its last bit, version 1 at 1; a lost version",
            "a lost version's place another leaf's: sibling 0 off by its last bit, version 1 at 1; a lost version",
            "a lost version's place at 8, a leaf that shares 7 bits there",
            "a lost version's place at 8, a leaf that shares 256 bits there",
        ],
    ),
    (
        13,
        &[
            "a lost version's place empty: a lost version",
            "a lost version's place another leaf's: a lost version",
            "a lost version's place at 8, a leaf that shares 8 bits there",
        ],
    ),
    (
        14,
        &[
            "monitor with kept value 0 contradicted",
            "monitor of 1099511627776 after 1099511627775, 6 long paths: kept value 0 off by its first bit",
        ],
    ),
];
