//! A checker of answers to greatest-version searches and to monitoring, in contact-monitoring
//! mode (paper 01). It uses the standard library alone and is compared with the proved library.
//!
//! From the bottom up: hashing (`sha256`, `hmac`, `suite`, `commitment`); trees and ladders
//! (`log_tree`, `batch_proof`, `prefix_tree`, `search_tree`, `ladder`); what is read (`hex`,
//! `lines`, `configuration`, `vrf_outputs`, `state`, `response`); the rules (`search`,
//! `monitoring`, `search_keys`, `tree_head`, `check`); and the two forms in which they are
//! offered (`calls`, `program`).

pub mod batch_proof;
pub mod calls;
pub mod check;
pub mod commitment;
pub mod configuration;
pub mod hex;
pub mod hmac;
pub mod ladder;
pub mod limits;
pub mod lines;
pub mod log_tree;
pub mod monitoring;
pub mod prefix_tree;
pub mod program;
pub mod refusal;
pub mod response;
pub mod search;
pub mod search_keys;
pub mod search_tree;
pub mod sha256;
pub mod state;
pub mod suite;
pub mod tree_head;
pub mod vrf_outputs;

#[cfg(test)]
mod example;
