//! A log of three entries worked out by hand, with calls on it, for the tests.
//!
//! Entry 0 has version 0 of the label `ab`, entry 1 adds the leaf of a stranger, entry 2 adds
//! version 1. The bits of the outputs are 0001 for version 0, 1001 for version 1, 1100 for
//! version 2, 0101 for version 3 and 1011 for the stranger.

mod call;

use crate::hmac::hmac;
use crate::limits;
use crate::response::Kind;
use crate::sha256::sha256;
use crate::suite::Hash;

/// All that a call is given, and what it yields if it is accepted.
#[derive(Clone)]
pub struct Example {
    pub kind: Kind,
    pub response: Vec<u8>,
    pub settings: Vec<u8>,
    pub state: Vec<u8>,
    pub identifier: Vec<u8>,
    pub clock: u64,
    pub sheet: Vec<u8>,
    pub signed: Vec<u8>,
    /// How many bytes are lent for the value and for the new state.
    pub value_room: usize,
    pub state_room: usize,
    /// The fields of the program's `yes` line, the value and the new state.
    pub yes: &'static str,
    pub value: &'static [u8],
    pub new_state: Vec<u8>,
}

const IDENTIFIER: [u8; 16] = [0, 1, 2, 3, 4, 5, 6, 7, 8, 9, 10, 11, 12, 13, 14, 15];
const IDENTIFIER_HEX: &str = "000102030405060708090a0b0c0d0e0f";

/// The bytes in hex.
pub fn hex(bytes: &[u8]) -> String {
    bytes.iter().map(|byte| format!("{byte:02x}")).collect()
}

/// The hash of a string made of these parts.
fn hash(parts: &[&[u8]]) -> Hash {
    sha256(&parts.concat())
}

/// An output with this first byte, all others being zero.
fn output(first: u8) -> [u8; 32] {
    let mut output = [0; 32];
    output[0] = first;
    output
}

/// The outputs of versions 0 to 3 and of the stranger.
pub const OUTPUTS: [u8; 4] = [0b0001_0000, 0b1001_0000, 0b1100_0000, 0b0101_0000];
const STRANGER: u8 = 0b1011_0000;

/// Max_ahead 10 and max_behind 1000, keys of two bytes and one, a window of 7, no lifetime.
pub const SETTINGS: [u8; 35] = [
    0, 1, 1, 0, 2, 0xaa, 0xbb, 0, 1, 0xcc, 0, 0, 0, 0, 0, 0, 0, 10, 0, 0, 0, 0, 0, 0, 0x03, 0xe8,
    0, 0, 0, 0, 0, 0, 0, 7, 0,
];

/// The records of some versions, with their outputs.
pub fn sheet(versions: &[u32]) -> Vec<u8> {
    let record = |&version: &u32| {
        let output = output(OUTPUTS[version as usize]);
        [&version.to_be_bytes()[..], &output].concat()
    };
    versions.iter().flat_map(record).collect()
}

/// The hashes of the log.
pub struct Log {
    pub commitments: [Hash; 2],
    /// The leaves of version 0 and of the stranger in the prefix trees.
    pub leaf0: Hash,
    pub stranger: Hash,
    /// In entry 2, the parent of version 1 and the stranger, and the parent above it.
    pub pair: Hash,
    pub above: Hash,
    pub prefix_roots: [Hash; 3],
    pub log_leaves: [Hash; 3],
    /// The parent of entries 0 and 1.
    pub first_two: Hash,
    pub root: Hash,
}

/// Opening and value of the versions.
const OPENINGS: [[u8; 16]; 2] = [[0x11; 16], [0x22; 16]];
const VALUES: [&[u8]; 2] = [b"first", b"second"];

/// The timestamps of the entries.
const TIMES: [u64; 3] = [100, 200, 300];

/// Works out the log.
pub fn log() -> Log {
    let kc = b"\xd8\x21\xf8\x79\x0d\x97\x70\x97\x96\xb4\xd7\x90\x33\x57\xc3\xf5";
    let zero = [0; 32];
    let commitments = [
        hmac(kc, b"\x11\x11\x11\x11\x11\x11\x11\x11\x11\x11\x11\x11\x11\x11\x11\x11\x02ab\0\0\0\x05first"),
        hmac(kc, b"\x22\x22\x22\x22\x22\x22\x22\x22\x22\x22\x22\x22\x22\x22\x22\x22\x02ab\0\0\0\x06second"),
    ];
    let leaf0 = hash(&[&[1], &output(0b0001_0000), &commitments[0]]);
    let leaf1 = hash(&[&[1], &output(0b1001_0000), &commitments[1]]);
    let stranger = hash(&[&[1], &output(0b1011_0000), &[0x77; 32]]);
    let pair = hash(&[&[2], &leaf1, &stranger]);
    let above = hash(&[&[2], &pair, &zero]);
    let prefix_roots = [
        leaf0,
        hash(&[&[2], &leaf0, &stranger]),
        hash(&[&[2], &leaf0, &above]),
    ];
    let log_leaves = [
        hash(&[&[0, 0, 0, 0, 0, 0, 0, 100], &prefix_roots[0]]),
        hash(&[&[0, 0, 0, 0, 0, 0, 0, 200], &prefix_roots[1]]),
        hash(&[&[0, 0, 0, 0, 0, 0, 1, 44], &prefix_roots[2]]),
    ];
    let first_two = hash(&[&[0], &log_leaves[0], &[0], &log_leaves[1]]);
    let root = hash(&[&[1], &first_two, &[0], &log_leaves[2]]);
    Log {
        commitments,
        leaf0,
        stranger,
        pair,
        above,
        prefix_roots,
        log_leaves,
        first_two,
        root,
    }
}

/// The beginning of a response: its first lines up to and with a search's target.
fn start(kind: Kind, n: u64, target: u32) -> String {
    match kind {
        Kind::Monitor => format!("kt\tmonitor\t{IDENTIFIER_HEX}\t6162\nhead\t{n}\n"),
        Kind::Search => {
            let opening = hex(&OPENINGS[target as usize]);
            let value = hex(VALUES[target as usize]);
            format!(
                "kt\tsearch\t{IDENTIFIER_HEX}\t6162\nhead\t{n}\ntarget\t{target}\t{opening}\t{value}\n"
            )
        }
    }
}

/// An `entry` line.
fn entry(log: &Log, position: usize) -> String {
    let root = hex(&log.prefix_roots[position]);
    format!("entry\t{position}\t{}\t{root}\n", TIMES[position])
}

/// The fields of an `nl` line that show a leaf.
fn leaf_fields(first: u8, commitment: &Hash) -> String {
    format!("{}\t{}", hex(&output(first)), hex(commitment))
}

/// The signed text of a log of n entries.
fn signed(settings: &[u8], n: u8, root: &Hash) -> Vec<u8> {
    [settings, &[0, 0, 0, 0, 0, 0, 0, n], root].concat()
}

/// A search for version 0 in the first entry, from a new state.
pub fn first_search() -> Example {
    let log = log();
    let mut response = start(Kind::Search, 1, 0);
    response += "step\t0\t-\nstep\t1\t-\n";
    response += &entry(&log, 0);
    response += "in\t0\t-\n";
    let leaf = leaf_fields(OUTPUTS[0], &log.commitments[0]);
    response += &format!("nl\t1\t{leaf}\t-\nend\n");
    Example {
        kind: Kind::Search,
        response: response.into_bytes(),
        settings: SETTINGS.to_vec(),
        state: b"size\t0\t0\t6162\n".to_vec(),
        identifier: IDENTIFIER.to_vec(),
        clock: 100,
        sheet: sheet(&[0, 1]),
        signed: signed(&SETTINGS, 1, &log.log_leaves[0]),
        value_room: 7,
        state_room: limits::STATE_TEXT,
        yes: "0\t1\t1",
        value: b"first",
        new_state: format!(
            "size\t1\t100\t6162\nkeep\t{}\npair\t0\t0\n",
            hex(&log.log_leaves[0])
        )
        .into_bytes(),
    }
}

/// Monitoring from the state of the first search, with two more entries.
pub fn monitoring() -> Example {
    let log = log();
    let mut response = start(Kind::Monitor, 3, 0);
    response += &format!("step\t0\t{}\n", hex(&log.commitments[0]));
    response += &entry(&log, 1);
    response += &format!("in\t0\t{}\n", hex(&log.stranger));
    response += &entry(&log, 2);
    response += "end\n";
    Example {
        kind: Kind::Monitor,
        response: response.into_bytes(),
        state: first_search().new_state,
        clock: 300,
        sheet: sheet(&[0]),
        signed: signed(&SETTINGS, 3, &log.root),
        yes: "-\t3\t1",
        value: b"",
        new_state: format!(
            "size\t3\t300\t6162\nkeep\t{}\nkeep\t{}\npair\t1\t0\n",
            hex(&log.first_two),
            hex(&log.log_leaves[2]),
        )
        .into_bytes(),
        ..first_search()
    }
}

/// A search for version 1 in all three entries, from the state of the monitoring.
pub fn second_search() -> Example {
    let log = log();
    let (leaf0, stranger, zero) = (hex(&log.leaf0), hex(&log.stranger), hex(&[0; 32]));
    let (pair, above) = (hex(&log.pair), hex(&log.above));
    let version0 = leaf_fields(OUTPUTS[0], &log.commitments[0]);
    let other = leaf_fields(STRANGER, &[0x77; 32]);
    let mut response = start(Kind::Search, 3, 1);
    response += &format!("step\t0\t{}\n", hex(&log.commitments[0]));
    response += "step\t1\t-\nstep\t3\t-\nstep\t2\t-\n";
    response += &entry(&log, 1);
    response += &format!("in\t0\t{stranger}\nnl\t1\t{other}\t{leaf0}\n");
    response += &entry(&log, 2);
    response += &format!("in\t0\t{above}\nin\t1\t{leaf0}{zero}{stranger}\n");
    response += &format!("nl\t3\t{version0}\t{above}\nno\t2\t{leaf0}{pair}\n");
    response += &format!("node\t{}\nend\n", hex(&log.log_leaves[0]));
    let state = monitoring().new_state;
    Example {
        response: response.into_bytes(),
        clock: 300,
        sheet: sheet(&[0, 1, 2, 3]),
        signed: signed(&SETTINGS, 3, &log.root),
        yes: "1\t3\t2",
        value: b"second",
        new_state: [&state[..], b"pair\t2\t1\n"].concat(),
        state,
        ..first_search()
    }
}

/// The two lookups of version 0's ladder in entry 1, which finds version 0 to be the greatest.
pub fn complete_at_entry_1(log: &Log) -> String {
    let other = leaf_fields(STRANGER, &[0x77; 32]);
    let (leaf0, stranger) = (hex(&log.leaf0), hex(&log.stranger));
    format!("in\t0\t{stranger}\nnl\t1\t{other}\t{leaf0}\n")
}

/// A search for version 0, from a new state, in a log whose third entry has entry 1's prefix tree.
pub fn quiet_search() -> Example {
    let log = log();
    let root1 = hex(&log.prefix_roots[1]);
    let third = hash(&[&[0, 0, 0, 0, 0, 0, 1, 44], &log.prefix_roots[1]]);
    let root = hash(&[&[1], &log.first_two, &[0], &third]);
    let mut response = start(Kind::Search, 3, 0);
    response += "step\t0\t-\nstep\t1\t-\n";
    for line in [
        format!("entry\t1\t200\t{root1}\n"),
        format!("entry\t2\t300\t{root1}\n"),
    ] {
        response += &line;
        response += &complete_at_entry_1(&log);
    }
    response += &format!("node\t{}\nend\n", hex(&log.log_leaves[0]));
    let (first_two, third) = (hex(&log.first_two), hex(&third));
    let new_state = format!("size\t3\t300\t6162\nkeep\t{first_two}\nkeep\t{third}\npair\t1\t0\n");
    Example {
        response: response.into_bytes(),
        clock: 300,
        signed: signed(&SETTINGS, 3, &root),
        yes: "0\t3\t1",
        new_state: new_state.into_bytes(),
        ..first_search()
    }
}

/// A search for version 0 in a log of 64 entries that is known already, with 48 map entries from a
/// position on.
pub fn full_map(first_position: u64) -> Example {
    let log = log();
    let mut response = start(Kind::Search, 64, 0);
    response += "step\t0\t-\nstep\t1\t-\n";
    response += &format!("entry\t63\t100\t{}\n", hex(&log.prefix_roots[0]));
    response += "in\t0\t-\n";
    let leaf = leaf_fields(OUTPUTS[0], &log.commitments[0]);
    response += &format!("nl\t1\t{leaf}\t-\n");
    let mut root = log.log_leaves[0];
    for height in (0..6).rev() {
        response += &format!("node\t{}\n", hex(&[height; 32]));
    }
    response += "end\n";
    for height in 0..6 {
        let mark = [u8::from(height > 0)];
        root = hash(&[&mark, &[height; 32], &mark, &root]);
    }
    let mut state = format!("size\t64\t100\t6162\nkeep\t{}\n", hex(&root));
    for position in first_position..first_position + 48 {
        state += &format!("pair\t{position}\t0\n");
    }
    Example {
        response: response.into_bytes(),
        new_state: state.clone().into_bytes(),
        state: state.into_bytes(),
        signed: signed(&SETTINGS, 64, &root),
        yes: "0\t64\t48",
        ..first_search()
    }
}
