//! The checks in the order of their numbers, so that the lowest that fails is the answer (paper 01,
//! Sixteen numbers).

use crate::batch_proof;
use crate::commitment::commitment;
use crate::configuration::Configuration;
use crate::hex;
use crate::limits;
use crate::log_tree::{self, Head, Subtree};
use crate::monitoring::Monitoring;
use crate::refusal::Refusal;
use crate::response::{Entry, Kind, Response, Target};
use crate::search::Search;
use crate::search_keys::SearchKeys;
use crate::state::{MapEntry, State};
use crate::suite::Hash;
use crate::tree_head::tree_head_tbs;
use crate::vrf_outputs::VrfOutputs;

/// What every call is given beside the state (paper 01, What a call is given).
#[derive(Clone, Copy)]
pub struct Inputs<'a> {
    pub response: &'a [u8],
    pub configuration: &'a [u8],
    pub vrf_outputs: &'a [u8],
    /// The kind asked for; a call that asks for no known kind is refused as not answered.
    pub kind: Option<Kind>,
    pub identifier: &'a [u8],
    pub clock: u64,
}

/// What a response that passes checks 1 to 14 yields.
pub struct Verified<'a> {
    /// The new state; its map may still be one entry too long.
    pub state: State,
    /// The root of the log.
    pub root: Hash,
    /// What a search found.
    pub target: Option<Target<'a>>,
}

/// What is asked of the response, by the kind that it answers.
enum Query {
    Search(Search),
    Monitoring(Monitoring),
}

/// Makes checks 1 to 14 on a state, none if its text could not be read, and the other inputs (paper
/// 01, Sixteen numbers).
pub fn verify<'a>(state: Option<&State>, inputs: &Inputs<'a>) -> Result<Verified<'a>, Refusal> {
    lengths(inputs)?; // 1
    let configuration = Configuration::read(inputs.configuration)?; // 2
    let state = state.ok_or(Refusal::State)?; // 3
    let outputs = VrfOutputs::read(inputs.vrf_outputs)?; // 4
    let response = Response::read(inputs.response)?; // 5
    request(inputs, state, &response)?; // 6
    tree_size(state, &response)?; // 7
    let query = Query::of(state, &response)?; // 8
    let retained = batch_proof::retained(state.size, &state.full_subtrees);
    query.shape(&response, &retained)?; // 9
    let target = target_commitment(state, &response);
    let keys = SearchKeys::of(&response.steps, &outputs, target)?; // 10
    let timestamp = timestamps(state, &response, &configuration, inputs.clock)?; // 11
    lookups(&response, &keys)?; // 12
    let map = query.updated_map(&response, &state.map)?; // 13
    let heads = full_subtrees(&response, &retained)?; // 14
    Ok(Verified {
        root: log_tree::root_value(&heads).ok_or(Refusal::TreeSize)?,
        state: State {
            label: state.label.clone(),
            size: response.tree_size,
            timestamp,
            full_subtrees: heads.iter().map(|head| head.value).collect(),
            map,
        },
        target: response.target,
    })
}

/// Makes all sixteen checks, `room` being how many bytes are lent for the value of a search (paper
/// 01, Sixteen numbers).
pub fn accept<'a>(
    state: Option<&State>,
    inputs: &Inputs<'a>,
    signed: &[u8],
    room: usize,
) -> Result<Verified<'a>, Refusal> {
    Refusal::Length.unless(signed.len() <= limits::SIGNED_TEXT)?; // 1
    let verified = verify(state, inputs)?; // 1 to 14
    Refusal::SignedText.unless(verified.signed_text(inputs) == signed)?; // 15
    let value_fits = verified
        .target
        .is_none_or(|target| target.value.len() <= room);
    let map_fits = verified.state.map.len() <= limits::MAP;
    Refusal::Room.unless(value_fits && map_fits)?; // 16
    Ok(verified)
}

impl Verified<'_> {
    /// The text whose signature shows that the log stands by this tree head (001, 10.2).
    pub fn signed_text(&self, inputs: &Inputs) -> Vec<u8> {
        tree_head_tbs(inputs.configuration, self.state.size, &self.root)
    }
}

impl Query {
    /// What the response answers, a search's target being checked (8).
    fn of(state: &State, response: &Response) -> Result<Self, Refusal> {
        Ok(match response.target {
            Some(target) => {
                let search = Search::new(target.version, response.tree_size, &state.map)?;
                Query::Search(search)
            }
            None => Query::Monitoring(Monitoring::new(response.tree_size, &state.map)),
        })
    }

    /// Checks steps, entries, versions looked up and the number of nodes (9).
    fn shape(&self, response: &Response, retained: &[Head]) -> Result<(), Refusal> {
        let (fits, shown) = match self {
            Query::Search(search) => (search.fits(response), search.positions()),
            Query::Monitoring(monitoring) => (monitoring.fits(response), monitoring.positions()),
        };
        let needed = batch_proof::nodes_needed(response.tree_size, &shown, retained);
        Refusal::Shape.unless(fits && response.nodes.len() == needed)
    }

    /// Checks what the lookups show and gives the new map (13).
    fn updated_map(&self, response: &Response, map: &[MapEntry]) -> Result<Vec<MapEntry>, Refusal> {
        match self {
            Query::Search(search) => search.updated_map(response, map),
            Query::Monitoring(monitoring) => monitoring.updated_map(response),
        }
    }
}

/// Checks the lengths of the inputs (1).
fn lengths(inputs: &Inputs) -> Result<(), Refusal> {
    Refusal::Length.unless(
        inputs.response.len() <= limits::RESPONSE
            && inputs.configuration.len() <= limits::CONFIGURATION
            && inputs.vrf_outputs.len() <= limits::VRF_OUTPUTS
            && inputs.identifier.len() == limits::IDENTIFIER,
    )
}

/// Checks that the response is for this kind, identifier and label (6).
fn request(inputs: &Inputs, state: &State, response: &Response) -> Result<(), Refusal> {
    Refusal::Request.unless(
        inputs.kind == Some(response.kind())
            && hex::writes(response.identifier, inputs.identifier)
            && hex::writes(response.label, &state.label),
    )
}

/// Checks the tree size, which never shrinks (7).
fn tree_size(state: &State, response: &Response) -> Result<(), Refusal> {
    let smallest = state.size.max(1);
    Refusal::TreeSize.unless((smallest..=limits::TREE_SIZE).contains(&response.tree_size))
}

/// The version that a search found and the commitment to its value (001, 10.6).
fn target_commitment(state: &State, response: &Response) -> Option<(u32, Hash)> {
    let target = response.target?;
    let opening = hex::decode(target.opening);
    let value = hex::decode_all(target.value);
    Some((target.version, commitment(&opening, &state.label, &value)))
}

/// Checks the timestamps and gives that of the last entry (11).
fn timestamps(
    state: &State,
    response: &Response,
    configuration: &Configuration,
    clock: u64,
) -> Result<u64, Refusal> {
    let entries = &response.entries;
    let fits_known = |entry: &Entry| {
        if entry.position < state.size {
            entry.timestamp <= state.timestamp
        } else {
            entry.timestamp >= state.timestamp
        }
    };
    let last = entries.last().map_or(0, |entry| entry.timestamp);
    let sum = |a: u64, b: u64| u128::from(a) + u128::from(b);
    Refusal::Time.unless(
        entries.is_sorted_by_key(|entry| entry.timestamp)
            && entries.iter().all(fits_known)
            && u128::from(last) <= sum(clock, configuration.max_ahead)
            && u128::from(clock) <= sum(last, configuration.max_behind),
    )?;
    Ok(last)
}

/// Checks that each lookup leads to its entry's prefix root (12).
fn lookups(response: &Response, keys: &SearchKeys) -> Result<(), Refusal> {
    let confirmed = |entry: &Entry| {
        let prefix_root = hex::decode(entry.prefix_root);
        let mut lookups = response.lookups_of(entry).iter();
        lookups.all(|lookup| keys.confirm(lookup, &prefix_root))
    };
    Refusal::Lookup.unless(response.entries.iter().all(confirmed))
}

/// The heads of the new tree's full subtrees, checked against the retained ones (14).
fn full_subtrees(response: &Response, retained: &[Head]) -> Result<Vec<Head>, Refusal> {
    let leaf = |entry: &Entry| Head {
        subtree: Subtree {
            start: entry.position,
            end: entry.position + 1,
        },
        value: log_tree::leaf_value(entry.timestamp, &hex::decode(entry.prefix_root)),
    };
    let leaves: Vec<Head> = response.entries.iter().map(leaf).collect();
    let nodes = response.nodes.iter();
    let nodes: Vec<Hash> = nodes.map(|node| hex::decode(node)).collect();
    batch_proof::heads(response.tree_size, &leaves, retained, &nodes)
}

#[cfg(test)]
mod tests;
