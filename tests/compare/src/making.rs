//! Cases made of exchanges.

use crate::case::{Acceptance, Answer, Case, Files, Inputs};
use crate::limits;
use honest_log::model::{hex, Digest, Exchange, Kind, Lookup, LookupResult};

impl Inputs {
    pub fn of(exchange: &Exchange) -> Inputs {
        Inputs {
            kind: exchange.kind,
            identifier: exchange.identifier.clone(),
            clock: exchange.clock,
            response: exchange.response.text(),
            settings: exchange.settings.bytes(),
            state: exchange.state.text(),
            sheet: exchange.sheet_bytes(),
            signed: exchange.signed_text(),
        }
    }

    /// The program's request line (paper 01, Sixteen numbers).
    pub fn request(&self) -> Vec<u8> {
        let identifier = hex(&self.identifier);
        format!("{}\t{identifier}\t{}\n", self.kind.word(), self.clock).into_bytes()
    }

    /// The same call as the program's files.
    pub fn files(&self) -> Files {
        Files {
            request: Some(self.request()),
            response: Some(self.response.clone()),
            settings: Some(self.settings.clone()),
            state: Some(self.state.clone()),
            sheet: Some(self.sheet.clone()),
            signed: Some(self.signed.clone()),
        }
    }
}

/// A lookup with its parts in the order they are written in.
pub fn looked_up(version: u32, result: LookupResult, siblings: Vec<Digest>) -> Lookup {
    Lookup {
        version,
        result,
        siblings,
    }
}

impl Acceptance {
    /// What the caller has after the exchange is accepted (paper 01, Sixteen numbers).
    pub fn of(exchange: &Exchange) -> Acceptance {
        let target = match exchange.kind {
            Kind::Search => exchange.response.target.as_ref(),
            Kind::Monitor => None,
        };
        Acceptance {
            version: target.map(|target| target.version),
            size: exchange.new_state.size,
            pairs: exchange.new_state.pairs.len(),
            state: exchange.new_state.text(),
            value: target.map(|target| target.value.clone()),
        }
    }
}

impl Answer {
    /// The answer of a number, where 0 is acceptance of the exchange.
    pub fn of(number: u8, exchange: &Exchange) -> Answer {
        match number {
            0 => Answer::Accepted(Acceptance::of(exchange)),
            number => Answer::Refused(number),
        }
    }
}

impl Case {
    /// An exchange as it is, with room for every value.
    pub fn of(name: impl Into<String>, number: u8, exchange: &Exchange) -> Case {
        Case {
            name: name.into(),
            inputs: Inputs::of(exchange),
            room: limits::VALUE,
            answer: Some(Answer::of(number, exchange)),
        }
    }
}
