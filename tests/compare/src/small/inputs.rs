//! Small cases for numbers 1 to 8: inputs, lines, and what was asked.

use super::shapes::{Choice, AGAIN, FIRST, IDLE, MOVING};
use crate::damage::{asked, fields, invalid, lengths, lines, settings, sheet, sizes, state};

pub const CHOICES: [Choice; 20] = [
    (
        FIRST,
        lengths::damages,
        &[
            "identifier of 0 bytes",
            "identifier of 15 bytes",
            "identifier of 17 bytes",
            "signed text of 2,089 bytes",
        ],
    ),
    (MOVING, lengths::damages, &["identifier of 15 bytes"]),
    (
        MOVING,
        lengths::damages,
        &["settings with spare bytes up to 2,049"],
    ),
    (
        FIRST,
        settings::damages,
        &[
            "suite 0",
            "suite 2",
            "mode 0",
            "mode 2",
            "settings cut to 0 bytes",
            "settings cut to 31 bytes",
            "settings with 1 spare bytes",
            "lifetime marked 2",
            "lifetime of 7 bytes",
            "leaf key of 0 bytes in mode 1",
            "lifetime Some(1) and window 0",
        ],
    ),
    (
        AGAIN,
        state::damages,
        &[
            "empty state text",
            "state text without its last 0x0A",
            "state's size field 1 with a leading zero",
            "state's line 1 doubled",
            "state with a pair before the last value",
        ],
    ),
    (
        AGAIN,
        invalid::damages,
        &[
            "state of size 0 with a time",
            "state with a value more",
            "pair at the state's size",
            "state's pair 0 of version 2^32 - 1",
            "two pairs at one position",
        ],
    ),
    (
        FIRST,
        sheet::damages,
        &[
            "sheet with 1 bytes more",
            "sheet's records 0 and 1 swapped",
            "sheet's record 0 doubled",
            "sheet of 35 bytes",
            "sheet with version 4294967295 too",
        ],
    ),
    (IDLE, sheet::damages, &["sheet of 1 bytes"]),
    (
        IDLE,
        sheet::damages,
        &["sheet with version 0 behind the others"],
    ),
    (
        FIRST,
        lines::damages,
        &[
            "empty response",
            "response without its last 0x0A",
            "response with a second end line",
            "response with 0x0D before the last 0x0A",
            "response without its target line",
            "response with its head line twice",
            "edition \"kt2\"",
            "kind \"fixed\"",
            "search's answer that says monitor",
            "first entry line left out, its lookups kept",
        ],
    ),
    (
        IDLE,
        lines::damages,
        &["monitoring's answer with a target line"],
    ),
    (
        IDLE,
        lines::damages,
        &["line 4 (node) before line 2 (entry)"],
    ),
    (
        FIRST,
        fields::damages,
        &[
            "first kt line, field 2 of 15 bytes",
            "first head line, field 1 with a leading zero",
            "first target line, field 2 as -",
            "first step line, field 1 as 2^32",
            "first entry line, field 2 as 2^64",
            "first in line, field 2 of 31 bytes",
            "first nl line, field 2 in upper case",
            "first end line, field 0 with a tab behind it",
        ],
    ),
    (
        FIRST,
        asked::damages,
        &[
            "asked identifier off by bit 0",
            "asked identifier off by bit 127",
            "empty label in the response",
            "label off in its last bit in the state",
            "monitoring asked, search answered",
        ],
    ),
    (
        MOVING,
        asked::damages,
        &["search asked, monitoring answered"],
    ),
    (MOVING, asked::damages, &["answered identifier all zero"]),
    (
        AGAIN,
        sizes::damages,
        &[
            "head of size 0",
            "head of size 1099511627777",
            "size 0 and nothing shown",
        ],
    ),
    (IDLE, sizes::damages, &["head of size 1"]),
    (
        AGAIN,
        sizes::damages,
        &[
            "target 4294967295 with 1 pairs",
            "pair 0 of version 1 above the target",
            "pair 0 of version 4294967294 above the target",
        ],
    ),
    (FIRST, sizes::damages, &["target 4294967295 with 0 pairs"]),
];
