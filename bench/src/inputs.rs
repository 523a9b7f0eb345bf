//! What a call is given, as bytes.

use honest_log::model::{Exchange, Kind};
use second::calls::Arguments;

pub struct Inputs {
    /// What they are, in a few words.
    pub name: String,
    /// The call that they are made for: the kind of the exchange.
    pub kind: Kind,
    /// What they must be answered with: 0 for acceptance, else the number of the refusal.
    pub number: u64,
    pub response: Vec<u8>,
    pub configuration: Vec<u8>,
    pub state: Vec<u8>,
    pub identifier: Vec<u8>,
    pub clock: u64,
    pub vrf_outputs: Vec<u8>,
    pub signed_text: Vec<u8>,
}

impl Inputs {
    /// The inputs of an exchange.
    pub fn of(name: &str, number: u64, exchange: &Exchange) -> Inputs {
        Inputs {
            name: name.to_string(),
            kind: exchange.kind,
            number,
            response: exchange.response.text(),
            configuration: exchange.settings.bytes(),
            state: exchange.state.text(),
            identifier: exchange.identifier.clone(),
            clock: exchange.clock,
            vrf_outputs: exchange.sheet_bytes(),
            signed_text: exchange.signed_text(),
        }
    }

    /// The inputs of an exchange with another response.
    pub fn with(name: &str, number: u64, exchange: &Exchange, response: Vec<u8>) -> Inputs {
        Inputs {
            response,
            ..Inputs::of(name, number, exchange)
        }
    }

    /// All but the signed text, as the calls take them.
    pub fn arguments(&self) -> Arguments<'_> {
        Arguments {
            response: &self.response,
            settings: &self.configuration,
            state: &self.state,
            identifier: &self.identifier,
            clock: self.clock,
            sheet: &self.vrf_outputs,
        }
    }
}
