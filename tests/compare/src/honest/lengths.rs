//! Responses of a chosen number of bytes, up to the library's and the program's limits (paper 01,
//! What a call is given).

use super::case;
use crate::base::question;
use crate::case::Case;
use crate::damage::leaves::flipped;
use crate::limits;
use honest_log::ladder::{binary_ladder, monitoring_ladder};
use honest_log::model::{Digest, Kind};
use honest_log::vrf::outputs_sharing;
use honest_log::{Addition, Answer, Contents, Log, VrfRule};

pub fn cases() -> Vec<Case> {
    let lengths = [
        4_000,
        limits::PROGRAM_RESPONSE - 1,
        limits::PROGRAM_RESPONSE,
        limits::PROGRAM_RESPONSE + 1,
        250_000,
        limits::RESPONSE - 1,
        limits::RESPONSE,
        limits::RESPONSE + 1,
    ];
    let mut list = Vec::new();
    for length in lengths {
        list.push(case(
            format!("search answered in {length} bytes"),
            &search_of_length(length),
        ));
    }
    for length in &lengths[1..] {
        list.push(case(
            format!("monitor answered in {length} bytes"),
            &monitoring_of_length(*length),
        ));
    }
    list
}

/// What the length of an answer is made of.
#[derive(Clone, Copy)]
struct Measures {
    kind: Kind,
    target: u32,
    /// Bits that all outputs share: so many more siblings in every lookup.
    bits: usize,
    /// More siblings in the lookups of version 0 alone.
    deeper: usize,
    /// The log has 2^levels entries.
    levels: u32,
    time: u64,
    label: usize,
    value: usize,
}

impl Measures {
    /// A table in which the label's versions share some bits, and another label's leaf shares more
    /// with version 0.
    fn vrf(&self, label: &[u8]) -> VrfRule {
        let versions = binary_ladder(self.target);
        let width = versions.len().next_power_of_two().ilog2() as usize;
        let outputs = outputs_sharing(&[0x39; limits::DIGEST], self.bits, versions.len());
        let near: Digest = flipped(&outputs[0], (self.bits + width + self.deeper).min(256) - 1);
        let otherwise = VrfRule::Hashed { seed: 11 };
        let table = VrfRule::table(label, &versions, &outputs, otherwise);
        VrfRule::table(b"near", &[0], &[near], table)
    }

    /// The answer of a log of equal entries, to a new checker's search or to one that monitors its
    /// first entry.
    fn answer(&self) -> Answer {
        let label = vec![b'm'; self.label];
        let addition = |label: &[u8], version: u32| Addition {
            label: label.to_vec(),
            version,
            contents: Contents {
                value: vec![b'v'; self.value],
                opening: [9; limits::OPENING],
            },
        };
        let mut additions: Vec<Addition> = monitoring_ladder(self.target)
            .iter()
            .map(|version| addition(&label, *version))
            .collect();
        if self.deeper > 0 {
            additions.push(addition(b"near", 0));
        }
        let mut log = Log::new(self.vrf(&label));
        log.append_run(self.time, &additions, 1 << self.levels);
        match self.kind {
            Kind::Search => log.search(&question(&log, &label, 0, &[], log.size())),
            Kind::Monitor => {
                log.monitor(&question(&log, &label, 1, &[(0, self.target)], log.size()))
            }
        }
        .expect("the target is there")
    }

    fn length(&self) -> usize {
        self.answer().exchange.response.text().len()
    }

    /// These measures with so many bits in common that the answer just stays below a length.
    fn near(&self, length: usize) -> Measures {
        let shallow = self.length();
        let step = Measures {
            bits: self.bits + 1,
            ..*self
        }
        .length()
            - shallow;
        Measures {
            bits: self.bits + (length - shallow) / step,
            ..*self
        }
    }

    /// These measures with label and value as long as the length needs, if they can be.
    fn filled(&self, length: usize) -> Option<Measures> {
        let missing = length.checked_sub(self.length())?;
        let bytes = missing / 2;
        let room = if self.kind == Kind::Search {
            limits::VALUE - self.value
        } else {
            0
        };
        let value = bytes.min(room);
        let label = bytes - value;
        let fits = missing % 2 == 0 && label <= limits::LABEL - self.label;
        fits.then_some(Measures {
            label: self.label + label,
            value: self.value + value,
            ..*self
        })
    }
}

/// The first of some measures that can be filled up to a length, as an answer.
fn first_filled(length: usize, measures: impl Iterator<Item = Measures>) -> Answer {
    let filled = measures
        .filter_map(|measures| measures.filled(length))
        .next();
    filled
        .unwrap_or_else(|| panic!("nothing is answered in {length} bytes"))
        .answer()
}

const START: Measures = Measures {
    kind: Kind::Search,
    target: limits::VERSION,
    bits: 0,
    deeper: 0,
    levels: 0,
    time: 7,
    label: 1,
    value: 1,
};

/// A search whose answer has just so many bytes; more nodes and a longer time are for the rest.
pub fn search_of_length(length: usize) -> Answer {
    let target = if length < limits::PROGRAM_RESPONSE / 2 {
        1
    } else {
        limits::VERSION
    };
    let near = Measures { target, ..START }.near(length);
    let choices = (0..40).flat_map(|levels| [7, 77].map(|time| (levels, time)));
    first_filled(
        length,
        choices.map(|(levels, time)| Measures {
            levels,
            time,
            ..near
        }),
    )
}

/// A monitoring whose answer has just so many bytes; a deeper leaf and longer times are for the
/// rest.
pub fn monitoring_of_length(length: usize) -> Answer {
    let target = if length < 3 * limits::PROGRAM_RESPONSE {
        100
    } else {
        limits::VERSION
    };
    let near = Measures {
        kind: Kind::Monitor,
        target,
        levels: 3,
        ..START
    }
    .near(length);
    let choices = (0..120).flat_map(|deeper| [7, 77].map(|time| (deeper, time)));
    first_filled(
        length,
        choices.map(|(deeper, time)| Measures {
            deeper,
            time,
            ..near
        }),
    )
}
