//! The response: its lines, and their fields as parts of its text (paper 01, Response lines).

use std::ops::Range;

use crate::hex::Digits;
use crate::limits;
use crate::lines::Reader;
use crate::refusal::Refusal;
use crate::suite::{NC, NH, VRF_NH};

/// The two kinds of call.
#[derive(Clone, Copy, Debug, PartialEq, Eq)]
pub enum Kind {
    Search,
    Monitor,
}

/// A hash value in hex.
pub type HexHash<'a> = &'a [Digits; NH];

/// A response whose lines are well formed; what they say is not judged yet.
pub struct Response<'a> {
    pub identifier: &'a [Digits; limits::IDENTIFIER],
    pub label: &'a [Digits],
    pub tree_size: u64,
    /// What a search found; monitoring has none.
    pub target: Option<Target<'a>>,
    pub steps: Vec<Step<'a>>,
    pub entries: Vec<Entry<'a>>,
    /// The lookups of all entries, in the order of the lines.
    lookups: Vec<Lookup<'a>>,
    pub nodes: Vec<HexHash<'a>>,
}

/// The version that a search found, with the opening of its commitment and its value.
#[derive(Clone, Copy)]
pub struct Target<'a> {
    pub version: u32,
    pub opening: &'a [Digits; NC],
    pub value: &'a [Digits],
}

/// A version that is looked up and, where it is given, its commitment.
pub struct Step<'a> {
    pub version: u32,
    pub commitment: Option<HexHash<'a>>,
}

/// A log entry that is shown.
pub struct Entry<'a> {
    pub position: u64,
    pub timestamp: u64,
    pub prefix_root: HexHash<'a>,
    /// Which of the response's lookups are this entry's.
    lookups: Range<usize>,
}

/// A lookup of a version in an entry's prefix tree.
pub struct Lookup<'a> {
    pub version: u32,
    pub result: LookupResult<'a>,
    /// The siblings of the path, from the root down; their number is the depth of its end.
    pub siblings: &'a [[Digits; NH]],
}

/// What stands at the end of a lookup's path (001, 11.2, PrefixSearchResult).
pub enum LookupResult<'a> {
    /// `in`: the leaf of the version itself.
    Inclusion,
    /// `no`: nothing.
    NonInclusionParent,
    /// `nl`: the leaf of another output.
    NonInclusionLeaf {
        output: &'a [Digits; VRF_NH],
        commitment: HexHash<'a>,
    },
}

impl Lookup<'_> {
    /// Says whether the lookup is for inclusion.
    pub fn is_inclusion(&self) -> bool {
        matches!(self.result, LookupResult::Inclusion)
    }
}

impl<'a> Response<'a> {
    /// Reads a whole response (paper 01, Sixteen numbers, 5).
    pub fn read(text: &'a [u8]) -> Result<Self, Refusal> {
        let mut reader = Reader::new(text);
        Self::lines(&mut reader)
            .filter(|_| reader.is_at_end())
            .ok_or(Refusal::Lines)
    }

    /// Reads the lines in their order, up to and with `end`.
    fn lines(reader: &mut Reader<'a>) -> Option<Self> {
        let kind = kind(reader)?;
        let identifier = reader.array()?;
        reader.tab()?;
        let label = reader.bytes(limits::LABEL)?;
        reader.end_of_line()?;
        let mut response = Response {
            identifier,
            label,
            tree_size: head(reader)?,
            target: match kind {
                Kind::Search => Some(target(reader)?),
                Kind::Monitor => None,
            },
            steps: Vec::new(),
            entries: Vec::new(),
            lookups: Vec::new(),
            nodes: Vec::new(),
        };
        while reader.skip(b"step\t") {
            response.steps.push(step(reader)?);
        }
        while reader.skip(b"entry\t") {
            response.entry(reader)?;
        }
        while reader.skip(b"node\t") {
            response.nodes.push(reader.array()?);
            reader.end_of_line()?;
        }
        reader.skip(b"end\n").then_some(response)
    }

    /// Reads an entry and the lookups that follow it.
    fn entry(&mut self, reader: &mut Reader<'a>) -> Option<()> {
        let position = reader.number()?;
        reader.tab()?;
        let timestamp = reader.number()?;
        reader.tab()?;
        let prefix_root = reader.array()?;
        reader.end_of_line()?;
        let first = self.lookups.len();
        while let Some(word) = lookup_word(reader) {
            self.lookups.push(lookup(reader, word)?);
        }
        self.entries.push(Entry {
            position,
            timestamp,
            prefix_root,
            lookups: first..self.lookups.len(),
        });
        Some(())
    }

    /// The kind that the response says it answers.
    pub fn kind(&self) -> Kind {
        match self.target {
            Some(_) => Kind::Search,
            None => Kind::Monitor,
        }
    }

    /// The lookups of one of the response's entries.
    pub fn lookups_of(&self, entry: &Entry) -> &[Lookup<'a>] {
        &self.lookups[entry.lookups.clone()]
    }
}

/// Reads the beginning of the first line, which tells the kind.
fn kind(reader: &mut Reader) -> Option<Kind> {
    if reader.skip(b"kt\tsearch\t") {
        Some(Kind::Search)
    } else if reader.skip(b"kt\tmonitor\t") {
        Some(Kind::Monitor)
    } else {
        None
    }
}

/// Reads the `head` line: the tree size.
fn head(reader: &mut Reader) -> Option<u64> {
    if !reader.skip(b"head\t") {
        return None;
    }
    let tree_size = reader.number()?;
    reader.end_of_line()?;
    Some(tree_size)
}

/// Reads the `target` line.
fn target<'a>(reader: &mut Reader<'a>) -> Option<Target<'a>> {
    if !reader.skip(b"target\t") {
        return None;
    }
    let version = reader.version()?;
    reader.tab()?;
    let opening = reader.array()?;
    reader.tab()?;
    let value = reader.bytes(limits::VALUE)?;
    reader.end_of_line()?;
    Some(Target {
        version,
        opening,
        value,
    })
}

/// Reads the rest of a `step` line, whose commitment may be left out.
fn step<'a>(reader: &mut Reader<'a>) -> Option<Step<'a>> {
    let version = reader.version()?;
    reader.tab()?;
    let commitment = reader.arrays(1)?.first();
    reader.end_of_line()?;
    Some(Step {
        version,
        commitment,
    })
}

/// Which lookup a line begins.
enum LookupWord {
    In,
    No,
    Nl,
}

/// Reads the first word of a lookup's line, if the line is one.
fn lookup_word(reader: &mut Reader) -> Option<LookupWord> {
    if reader.skip(b"in\t") {
        Some(LookupWord::In)
    } else if reader.skip(b"no\t") {
        Some(LookupWord::No)
    } else if reader.skip(b"nl\t") {
        Some(LookupWord::Nl)
    } else {
        None
    }
}

/// Reads the rest of a lookup's line.
fn lookup<'a>(reader: &mut Reader<'a>, word: LookupWord) -> Option<Lookup<'a>> {
    let version = reader.version()?;
    reader.tab()?;
    let result = match word {
        LookupWord::In => LookupResult::Inclusion,
        LookupWord::No => LookupResult::NonInclusionParent,
        LookupWord::Nl => other_leaf(reader)?,
    };
    let siblings = reader.arrays(limits::SIBLINGS)?;
    reader.end_of_line()?;
    Some(Lookup {
        version,
        result,
        siblings,
    })
}

/// Reads the other leaf of an `nl` line and the tab after it.
fn other_leaf<'a>(reader: &mut Reader<'a>) -> Option<LookupResult<'a>> {
    let output = reader.array()?;
    reader.tab()?;
    let commitment = reader.array()?;
    reader.tab()?;
    Some(LookupResult::NonInclusionLeaf { output, commitment })
}

#[cfg(test)]
mod tests;
