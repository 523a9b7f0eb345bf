//! Small cases for checkers that are slow: logs of one to four entries, short keys and labels, few
//! siblings.

use crate::base::Base;
use crate::case::Case;
use honest_log::model::{Digest, Kind, Settings, State};
use honest_log::{Addition, Contents, Log, Question, VrfRule};

pub mod answers;
pub mod blocks;
pub mod chains;
pub mod inputs;
pub mod shapes;

pub use blocks::blocks;
use shapes::{exchanged, AGAIN, BOTH, FIRST, IDLE, MOVING, OTHERS, THIRD};

/// The most blocks that a small case hashes.
pub const MOST_BLOCKS: usize = 25;

/// The longest response of a small case, in bytes.
pub const LONGEST: usize = 1_000;

pub const LABEL: &[u8] = b"a";

/// The shortest settings there are.
pub fn settings() -> Settings {
    Settings {
        suite: 1,
        mode: 1,
        signature_key: Vec::new(),
        vrf_key: Vec::new(),
        max_ahead: 2,
        max_behind: 3,
        monitoring_window: 0,
        maximum_lifetime: None,
    }
}

/// Outputs that part at their first two bits: versions 0 and 1 on either side, 2 beside 0, 3 beside
/// 1.
fn output(version: u32) -> Digest {
    let first = [0x00, 0x80, 0x40, 0xc0][version as usize];
    let mut output = [version as u8; 32];
    output[0] = first;
    output
}

fn addition(version: u32) -> Addition {
    let contents = Contents {
        value: vec![b'v'],
        opening: [version as u8; 16],
    };
    Addition {
        label: LABEL.to_vec(),
        version,
        contents,
    }
}

/// A log with so many versions at each of its entries, at times 1, 2, 3 and so on.
pub fn log(versions: &[u32]) -> Log {
    let all = [0, 1, 2, 3];
    let outputs = all.map(output);
    let mut log = Log::new(VrfRule::table(
        LABEL,
        &all,
        &outputs,
        VrfRule::Hashed { seed: 1 },
    ));
    let mut next = 0;
    for (position, count) in versions.iter().enumerate() {
        let additions: Vec<Addition> = (next..*count).map(addition).collect();
        next = next.max(*count);
        log.append(position as u64 + 1, &additions);
    }
    log
}

/// A question at the time of the last entry.
pub fn question(log: &Log, state: State, size: u64) -> Question {
    Question::at_last_entry(log, settings(), state, size)
}

/// An honest exchange of a small log.
pub fn base(
    name: &str,
    kind: Kind,
    log: &Log,
    old_size: u64,
    pairs: &[(u64, u32)],
    size: u64,
) -> Base {
    let state = log.state(LABEL, old_size, pairs);
    Base::new(name, kind, log, question(log, state, size))
}

/// A search in whose tree version 1 leads to an empty place, another leaf standing beside version
/// 0.
fn empty_place() -> Case {
    let outputs = [output(0), output(1), output(2), output(3)];
    let vrf = VrfRule::table(LABEL, &[0, 1, 8, 9], &outputs, VrfRule::Hashed { seed: 1 });
    let mut log = Log::new(vrf);
    log.append(1, &[addition(0), addition(8)]);
    let base = log.search_target(&question(&log, State::new(LABEL), 1), 0);
    Case::of(
        "small search, an empty place",
        0,
        &base.expect("version 0 is there").exchange,
    )
}

/// All small cases.
pub fn all() -> Vec<Case> {
    let bases = [FIRST, AGAIN, THIRD, BOTH, MOVING, IDLE];
    let mut list: Vec<Case> = bases
        .into_iter()
        .chain(OTHERS)
        .map(|exchange| Case::of(exchange.0, 0, &exchanged(exchange).exchange))
        .collect();
    list.push(empty_place());
    list.extend(shapes::chosen(&inputs::CHOICES));
    list.extend(shapes::chosen(&answers::CHOICES));
    list.extend(answers::other_logs());
    list.extend(answers::other_leaves());
    list.extend(answers::full_maps());
    list.extend(chains::cases());
    list.retain(|case| blocks(case) <= MOST_BLOCKS && case.inputs.response.len() < LONGEST);
    list
}
