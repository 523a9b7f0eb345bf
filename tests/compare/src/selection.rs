//! Some of many cases.

use crate::case::{Answer, Case};

/// The refusals' numbers, and 0 for acceptance.
pub const NUMBERS: usize = 17;

impl Answer {
    /// The number of the refusal, 0 for acceptance.
    pub fn number(&self) -> u8 {
        match self {
            Answer::Accepted(_) => 0,
            Answer::Refused(number) => *number,
        }
    }
}

/// The cases by the number they are answered with; those whose answer is not known are left out.
pub fn by_number(cases: Vec<Case>) -> [Vec<Case>; NUMBERS] {
    let mut groups: [Vec<Case>; NUMBERS] = Default::default();
    for case in cases {
        if let Some(answer) = &case.answer {
            groups[usize::from(answer.number())].push(case);
        }
    }
    groups
}

/// So many elements of a list, evenly spread, or all if there are no more.
pub fn spread<T>(list: Vec<T>, count: usize) -> Vec<T> {
    let length = list.len();
    let chosen = count.min(length);
    let mut taken = 0;
    let mut spread = Vec::with_capacity(chosen);
    for (index, element) in list.into_iter().enumerate() {
        if taken < chosen && index == taken * length / chosen {
            taken += 1;
            spread.push(element);
        }
    }
    spread
}

#[cfg(test)]
mod tests {
    use super::*;

    #[test]
    fn spread_evenly() {
        let list = || (0..10).collect::<Vec<u32>>();
        assert_eq!(spread(list(), 0), []);
        assert_eq!(spread(list(), 1), [0]);
        assert_eq!(spread(list(), 3), [0, 3, 6]);
        assert_eq!(spread(list(), 10), list());
        assert_eq!(spread(list(), 100), list());
        assert_eq!(spread(Vec::<u32>::new(), 3), []);
    }
}
