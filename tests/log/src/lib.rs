//! An honest log: it answers searches and monitoring, and knows what state an acceptance leaves.
//! Of the second program it uses the hash functions only.
//!
//! A [`Log`] grows by entries, one or a long run of equal ones at a time; every earlier moment
//! stays at hand, so an answer can be asked for any size up to its own. A [`Question`] says what is
//! asked and by whom; an [`Answer`] is the exchange, with what stands against accepting it.

pub mod answer;
pub mod contents;
pub mod hashes;
pub mod ladder;
pub mod limits;
pub mod log;
pub mod log_tree;
pub mod model;
mod monitor;
mod obstacles;
pub mod prefix_tree;
pub mod random;
mod search;
pub mod search_tree;
pub mod vrf;

pub use answer::{Answer, NoAnswer, Obstacle, Question};
pub use contents::{Addition, ContentRule, Contents};
pub use log::Log;
pub use log_tree::LogEntry;
pub use prefix_tree::PrefixTree;
pub use random::Random;
pub use vrf::VrfRule;
