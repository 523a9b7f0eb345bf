//! How many calls were compared, by what was answered, and what differed.

use crate::selection::NUMBERS;
use std::fmt;

#[derive(Default)]
pub struct Tally {
    /// Searches and monitorings by the number answered; 0 is acceptance.
    by_number: [u64; NUMBERS],
    /// Signed texts by the number answered; 0 is a text that was written.
    signed_texts: [u64; NUMBERS],
    /// Ladders and digests.
    others: u64,
    pub differences: Vec<String>,
}

/// With more differences than this a run ends early.
pub const ENOUGH: usize = 10;

/// The refusal that needs a signed text to be given.
const WITHOUT_TEXT: usize = 15;

/// What was answered how often.
fn write_counts(f: &mut fmt::Formatter, first: &str, counts: &[u64; NUMBERS]) -> fmt::Result {
    write!(f, "{first} {}", counts[0])?;
    for (number, count) in counts.iter().enumerate().skip(1) {
        write!(f, ", {number}: {count}")?;
    }
    Ok(())
}

impl Tally {
    pub fn count(&mut self, number: u8) {
        self.by_number[usize::from(number)] += 1;
    }

    /// A signed text, by the answer: its length, or a number, which is less than any length.
    pub fn count_signed_text(&mut self, answer: u64) {
        let number = usize::try_from(answer).unwrap_or(NUMBERS);
        self.signed_texts[if number < NUMBERS { number } else { 0 }] += 1;
    }

    pub fn count_other(&mut self) {
        self.others += 1;
    }

    pub fn differs(&mut self, what: String) {
        self.differences.push(what);
    }

    pub fn enough(&self) -> bool {
        self.differences.len() >= ENOUGH
    }

    pub fn add(&mut self, other: Tally) {
        for (sum, count) in self.by_number.iter_mut().zip(other.by_number) {
            *sum += count;
        }
        for (sum, count) in self.signed_texts.iter_mut().zip(other.signed_texts) {
            *sum += count;
        }
        self.others += other.others;
        self.differences.extend(other.differences);
    }

    /// Nothing differed, and every number was answered; by signed texts, if there were any, every one but 15.
    pub fn passes(&self) -> bool {
        let lacks = |number: &usize| self.signed_texts[*number] == 0;
        let lacking: Vec<usize> = (0..NUMBERS).filter(lacks).collect();
        self.differences.is_empty()
            && self.by_number.iter().all(|&count| count > 0)
            && (lacking == [WITHOUT_TEXT] || lacking.len() == NUMBERS)
    }
}

impl fmt::Display for Tally {
    fn fmt(&self, f: &mut fmt::Formatter) -> fmt::Result {
        write_counts(f, "accepted", &self.by_number)?;
        if self.signed_texts != [0; NUMBERS] {
            write_counts(f, "\nsigned texts", &self.signed_texts)?;
        }
        if self.others > 0 {
            write!(f, "\nladders and digests {}", self.others)?;
        }
        for difference in &self.differences {
            write!(f, "\ndiffers: {difference}")?;
        }
        Ok(())
    }
}
