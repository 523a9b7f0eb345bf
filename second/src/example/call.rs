//! Makes the calls of the examples and sees that all forms agree and only acceptance writes.

use super::{hex, Example};
use crate::calls::{self, Arguments};
use crate::limits;
use crate::program::{self, Files};
use crate::response::Kind;

/// What the bytes that are lent hold before a call.
const LENT: u8 = 0xee;

/// What a call answered and wrote.
pub struct Answer {
    pub number: u64,
    pub value: Vec<u8>,
    pub state: Vec<u8>,
}

impl Example {
    /// The example with another text in place of a part of its response.
    pub fn with(mut self, part: &str, other: &str) -> Self {
        let response = String::from_utf8(self.response).unwrap();
        assert!(response.contains(part), "{part:?}");
        self.response = response.replacen(part, other, 1).into_bytes();
        self
    }

    /// The example with another text in place of a part of its state.
    pub fn with_state(mut self, part: &str, other: &str) -> Self {
        let state = String::from_utf8(self.state).unwrap();
        assert!(state.contains(part), "{part:?}");
        self.state = state.replacen(part, other, 1).into_bytes();
        self
    }

    /// The example with other bounds on the clock, and the signed text that belongs to them.
    pub fn with_bounds(mut self, max_ahead: u64, max_behind: u64) -> Self {
        let mut settings = self.settings.clone();
        settings[10..18].copy_from_slice(&max_ahead.to_be_bytes());
        settings[18..26].copy_from_slice(&max_behind.to_be_bytes());
        self.signed = [&settings, &self.signed[self.settings.len()..]].concat();
        self.settings = settings;
        self
    }

    /// The arguments that the calls share.
    pub fn arguments(&self) -> Arguments<'_> {
        Arguments {
            response: &self.response,
            settings: &self.settings,
            state: &self.state,
            identifier: &self.identifier,
            clock: self.clock,
            sheet: &self.sheet,
        }
    }

    /// The files of the program.
    pub fn files(&self) -> Files {
        let word = match self.kind {
            Kind::Search => "search",
            Kind::Monitor => "monitor",
        };
        let identifier = match self.identifier.is_empty() {
            true => "-".to_string(),
            false => hex(&self.identifier),
        };
        let request = format!("{word}\t{identifier}\t{}\n", self.clock);
        Files {
            request: Some(request.into_bytes()),
            response: Some(self.response.clone()),
            settings: Some(self.settings.clone()),
            state: Some(self.state.clone()),
            sheet: Some(self.sheet.clone()),
            signed: Some(self.signed.clone()),
        }
    }

    /// Makes the call and gives its number; if it is accepted it yields what it has to.
    pub fn number(&self) -> u64 {
        let answer = self.answer();
        if answer.number == 0 {
            assert_eq!(answer.value, self.value);
            assert_eq!(answer.state, self.new_state);
            let line = String::from_utf8(program::judge(&self.files()).line).unwrap();
            assert_eq!(line, format!("yes\t{}\n", self.yes));
        }
        answer.number
    }

    /// Makes the call in all forms.
    pub fn answer(&self) -> Answer {
        let answer = self.call();
        self.check_signed_text(answer.number);
        self.check_program(&answer);
        answer
    }

    /// Makes the call and sees that no byte changes but by acceptance.
    fn call(&self) -> Answer {
        let mut output = vec![LENT; self.value_room];
        let mut new_state = vec![LENT; self.state_room];
        let arguments = self.arguments();
        let answer = match self.kind {
            Kind::Search => calls::search(&arguments, &self.signed, &mut output, &mut new_state),
            Kind::Monitor => calls::monitor(&arguments, &self.signed, &mut new_state),
        };
        let number = answer & 0xff;
        let value_length = (answer >> 8 & 0xff_ffff) as usize;
        let state_length = (answer >> 32) as usize;
        assert!(number == 0 || answer == number);
        assert!(output[value_length..].iter().all(|&byte| byte == LENT));
        assert!(new_state[state_length..].iter().all(|&byte| byte == LENT));
        output.truncate(value_length);
        new_state.truncate(state_length);
        Answer {
            number,
            value: output,
            state: new_state,
        }
    }

    /// Sees that the signed-text call gives the call's number, if that is not about what only the
    /// call is lent, or else the text.
    fn check_signed_text(&self, number: u64) {
        let mut buffer = [LENT; 2200];
        let answer = calls::signed_text(self.kind as u32, &self.arguments(), &mut buffer, 10);
        let not_lent =
            self.state_room < limits::STATE_TEXT || self.signed.len() > limits::SIGNED_TEXT;
        let mut end = 10;
        if answer <= 16 {
            assert!(answer == number || not_lent);
        } else {
            end += answer as usize;
            assert_eq!(answer as usize, self.settings.len() + 40);
            let same = buffer[10..end] == self.signed;
            assert!(not_lent || same != (number == 15));
            assert!(not_lent || [0, 15, 16].contains(&number));
        }
        assert!(buffer[..10].iter().all(|&byte| byte == LENT));
        assert!(buffer[end..].iter().all(|&byte| byte == LENT));
    }

    /// Sees that the program does what the call does, if both have the same limits.
    fn check_program(&self, answer: &Answer) {
        let small = self.state_room < limits::STATE_TEXT || self.value_room < self.value.len();
        let long = self.response.len() > limits::PROGRAM_RESPONSE || self.identifier.len() > 40;
        if small || long {
            return;
        }
        let outcome = program::judge(&self.files());
        if answer.number > 0 {
            assert_eq!(
                outcome.line,
                format!("no\t{}\n", answer.number).into_bytes()
            );
            assert_eq!((outcome.state, outcome.value), (None, None));
            return;
        }
        assert!(outcome.line.starts_with(b"yes\t"));
        assert_eq!(outcome.state.as_ref(), Some(&answer.state));
        let value = (self.kind == Kind::Search).then_some(&answer.value);
        assert_eq!(outcome.value.as_ref(), value);
    }
}
