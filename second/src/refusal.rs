//! The sixteen refusals (paper 01, Sixteen numbers).

/// Why a call is refused; a case's value is its number in the paper's table.
#[derive(Clone, Copy, Debug, PartialEq, Eq)]
pub enum Refusal {
    Length = 1,
    Configuration = 2,
    State = 3,
    VrfOutputs = 4,
    Lines = 5,
    Request = 6,
    TreeSize = 7,
    Target = 8,
    Shape = 9,
    MissingOutput = 10,
    Time = 11,
    Lookup = 12,
    Ladder = 13,
    FullSubtree = 14,
    SignedText = 15,
    Room = 16,
}

impl Refusal {
    /// The number of the refusal in the paper's table.
    pub fn number(self) -> u8 {
        self as u8
    }

    /// Refuses unless a condition holds.
    pub fn unless(self, condition: bool) -> Result<(), Refusal> {
        if condition {
            Ok(())
        } else {
            Err(self)
        }
    }

    /// One sentence for people that says what was found wrong.
    pub fn sentence(self) -> &'static str {
        match self {
            Refusal::Length => "an input is missing, too long or not of its fixed length",
            Refusal::Configuration => "the settings are not a configuration this checker knows",
            Refusal::State => "the state is not valid",
            Refusal::VrfOutputs => "the sheet is not a rising list of whole records",
            Refusal::Lines => "the response is not well formed",
            Refusal::Request => "the response does not answer this request",
            Refusal::TreeSize => "the tree size is out of bounds or smaller than the known one",
            Refusal::Target => "the version found is out of bounds or older than a known one",
            Refusal::Shape => "the response does not show exactly what has to be shown",
            Refusal::MissingOutput => "the sheet lacks the VRF output of a version",
            Refusal::Time => "the times fall, contradict the known one or are off the clock",
            Refusal::Lookup => "a lookup does not lead to its prefix root",
            Refusal::Ladder => "the lookups do not show what has to be included or absent",
            Refusal::FullSubtree => "the log differs from the one known before",
            Refusal::SignedText => "the signed text is not that of this tree head",
            Refusal::Room => "there is no room for the result",
        }
    }
}

#[cfg(test)]
mod tests {
    use super::*;

    #[test]
    fn numbers_run_from_1_to_16() {
        assert_eq!(Refusal::Length.number(), 1);
        assert_eq!(Refusal::Shape.number(), 9);
        assert_eq!(Refusal::Room.number(), 16);
    }
}
