//! House figures over a view: three sums, and the largest of calls waiting.
use super::bytes::{view_ok, LIMIT};
use super::Refusal;

/// The figures over a view of n nodes, or 12, 1, 7.
pub fn figures(n: usize, view: &[u8]) -> Result<[u32; 4], Refusal> {
    if n.checked_mul(16) != Some(view.len()) {
        return Err(12);
    }
    if !(1..=16).contains(&n) {
        return Err(1);
    }
    if !view_ok(view, LIMIT) {
        return Err(7);
    }
    let [mut extensions, mut lines, mut waiting, mut wakeups] = [0; 4];
    for entry in view.chunks_exact(16) {
        let count = |at: usize| u32::from(u16::from_be_bytes([entry[at], entry[at + 1]]));
        extensions += count(8);
        lines += count(10);
        waiting = waiting.max(count(12));
        wakeups += count(14);
    }
    Ok([extensions, lines, waiting, wakeups])
}
