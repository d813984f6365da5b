//! The oracle: Algorithm 1 with document 01's amendments over sets that never forget, run from session text; and
//! beside it a node's bounded record, its messages in bytes, what makes a lent cluster unusable, and the desk's page.
//! It shares no code with the proved crates, so that agreement with them says something.

pub mod cluster;
pub mod dice;
pub mod feed;
pub mod habits;
pub mod message;
pub mod network;
pub mod node;
mod oddities;
pub mod order;
pub mod page;
pub mod picture;
pub mod random;
pub mod record;
pub mod session;
pub mod stated;
pub mod stats;
pub mod text;
pub mod wire;

#[cfg(test)]
mod tests;
