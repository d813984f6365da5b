//! One node and the cluster in plain Rust, on the same bytes and with the same checks as the proved ones.
pub mod bytes;
pub mod cluster;
pub mod figures;
pub mod message;
pub mod node;
pub mod page;
pub mod record;
pub mod step;

/// A refusal, by its number in documents 01 and 02.
pub type Refusal = u8;

/// The most of n nodes that may stop: the largest f with 2f < n, and 0 where n is 0.
pub fn most_faults(n: usize) -> usize {
    n.saturating_sub(1) / 2
}

/// Whether there may be n nodes of which f may stop.
fn is_size(n: usize, f: usize) -> bool {
    (1..=16).contains(&n) && f <= most_faults(n)
}
