//! The proved calls one by one, on any numbers and any lent bytes: a code comes out. The types of this crate stand on
//! these; use them for bytes that live elsewhere.
//!
//! | code | after an event | after another call |
//! |---|---|---|
//! | 0, [`TAKEN`] | no operation has ended | what was lent holds the result |
//! | 1 to 12, 14, 15 | refused: [`Refusal`](crate::Refusal) | the same |
//! | 13, [`SPENT`] | an update is spent | – |
//! | 100 to 103, from [`DONE`] on | an update is done | – |
//! | 110 to 113, from [`SCAN`] on | a scan has ended | – |
//!
//! The last digit of 100 to 113 is the rule: 0 for a view borrowed from a good message, or the round, 1 to 3. A refusal
//! leaves all that is lent as it was.
//!
//! ```
//! use snapshot::lent;
//!
//! let mut record = vec![0; lent::node_size()];
//! assert_eq!(lent::node_fresh(3, 1, 4, &mut record), 1); // node 4 of three
//! assert_eq!(lent::node_fresh(3, 2, 2, &mut record), 1); // two of three may not stop
//! assert_eq!(lent::node_fresh(3, 1, 2, &mut record), 0);
//! ```
//!
//! This file has all the `unsafe` of the crate. What the calls ask is in the head of `crates/snapshot/src/lib.rt`: that
//! a pointer and its length are those of memory, and that two regions lent at once do not overlap. Both hold of every
//! call here, and that is why each `unsafe` is sound:
//!
//! - the pointer and the length are those of one slice, or the pointer is that of one array or number of the declared
//!   type, so all of it is memory, aligned for its type, and has been written;
//! - what the call writes comes in by `&mut`, so nothing else that is lent overlaps it;
//! - the call keeps no pointer past its end, and has no precondition on what the memory holds.
//!
//! What a call writes is bytes and numbers, of which every value is one of its type.
use crate::raw;
use crate::{REPORT, VIEW};

/// The code of a call that is done, and no operation has ended.
pub const TAKEN: u8 = 0;

/// The code of an update that ended without effect: no tag was left for it.
pub const SPENT: u8 = 13;

/// The code of an update that is done, before its rule, 0 to 3, is added.
pub const DONE: u8 = 100;

/// The code of a scan that has ended, before its rule, 0 to 3, is added.
pub const SCAN: u8 = 110;

/// The route of a message that goes to all nodes, 1 to n in turn, the sending one among them.
pub const TO_ALL: u8 = 0;

/// The route of a message that goes to the sender of the message, or of the frame, that was handled.
pub const TO_SENDER: u8 = 1;

/// The most of n nodes that may stop: the largest f with 2f < n, and 0 where n is 0. It is document 01's f; of n from 1
/// to 16 a node or a cluster may be made with any from 0 to this. With a smaller one fewer nodes may stop, and an
/// operation waits for a larger quorum, which is n − f nodes.
///
/// ```
/// use snapshot::most_faults;
///
/// assert_eq!([1, 2, 3, 4, 5, 16].map(most_faults), [0, 0, 1, 1, 2, 7]);
/// ```
#[inline]
pub fn most_faults(n: usize) -> usize {
    // SAFETY: nothing is lent.
    unsafe { raw::snapshot_most_faults(n) }
}

/// The bytes to lend for a cluster of n nodes; 0 where there may be none.
#[inline]
pub fn size(n: usize) -> usize {
    // SAFETY: nothing is lent.
    unsafe { raw::snapshot_size(n) }
}

/// Makes the lent bytes a fresh cluster of n nodes, of which f may stop. Refusals: 1, 12.
#[inline]
pub fn fresh(n: usize, f: usize, cluster: &mut [u8]) -> u8 {
    // SAFETY: pointer and length of one slice.
    unsafe { raw::snapshot_fresh(n, f, cluster.as_mut_ptr(), cluster.len()) }
}

/// Begins an update with this report at a node; where `cut`, only so many of the first messages go out as `entries`
/// says, and the node stops. Refusals: 12, 2, 3, 4, 5, 6, 10, 11.
#[inline]
pub fn begin_update(cluster: &mut [u8], node: usize, report: &[u8; REPORT], cut: bool, entries: usize) -> u8 {
    // SAFETY: pointer and length of one slice, which is lent by `&mut` and so apart from the array.
    unsafe { raw::snapshot_begin_update(cluster.as_mut_ptr(), cluster.len(), node, report, cut, entries) }
}

/// Begins a scan at a node, whole or cut. Refusals: 12, 2, 3, 4, 5, 6, 10, 11.
#[inline]
pub fn begin_scan(cluster: &mut [u8], node: usize, cut: bool, entries: usize) -> u8 {
    // SAFETY: pointer and length of one slice.
    unsafe { raw::snapshot_begin_scan(cluster.as_mut_ptr(), cluster.len(), node, cut, entries) }
}

/// Delivers what has waited longest on the channel between two nodes, whole or cut. The view of a scan that ends goes
/// to `view`: n entries, then zeros. Refusals: 12, 2, 3, 4, 8, 7, 9, 10, 11.
#[inline]
pub fn deliver(cluster: &mut [u8], from: usize, to: usize, cut: bool, entries: usize, view: &mut [u8; VIEW]) -> u8 {
    // SAFETY: pointer and length of one slice; the array is another region, since both are lent by `&mut`.
    unsafe { raw::snapshot_deliver(cluster.as_mut_ptr(), cluster.len(), from, to, cut, entries, view) }
}

/// Stops a node. Refusals: 12, 2, 3, 4, 10.
#[inline]
pub fn stop(cluster: &mut [u8], node: usize) -> u8 {
    // SAFETY: pointer and length of one slice.
    unsafe { raw::snapshot_stop(cluster.as_mut_ptr(), cluster.len(), node) }
}

/// Reads one message: its kind, request number, writer and tag go to `numbers`, 0 where the kind has none; its report
/// to `report`, zeros where it has none. The view of a good one is the bytes from 18 on. Refusals: 1, 7.
#[inline]
pub fn read(n: usize, bytes: &[u8], numbers: &mut [u64; 4], report: &mut [u8; REPORT]) -> u8 {
    // SAFETY: pointer and length of one slice; the two arrays are lent by `&mut`, so they are apart from it and from
    // each other.
    unsafe { raw::snapshot_read(n, bytes.as_ptr(), bytes.len(), numbers, report) }
}

/// Writes the message of these numbers at the front of `out`, and its length to `length`. The report is looked at only
/// for a value, the view only for a good one, and of the numbers those that the kind has. Refusals: 1, 7, 12.
#[inline]
pub fn write(
    n: usize,
    numbers: &[u64; 4],
    report: &[u8; REPORT],
    view: &[u8],
    out: &mut [u8],
    length: &mut usize,
) -> u8 {
    let (at, room) = (out.as_mut_ptr(), out.len());
    // SAFETY: each pointer with the length of its own slice; `out` and `length` are lent by `&mut`, so they are apart
    // from each other and from what is only read.
    unsafe { raw::snapshot_write(n, numbers, report, view.as_ptr(), view.len(), at, room, length) }
}

/// The house figures over a view of n nodes. Refusals: 12, 1, 7.
#[inline]
pub fn figures(n: usize, view: &[u8], figures: &mut [u32; 4]) -> u8 {
    // SAFETY: pointer and length of one slice; the array is lent by `&mut`, so it is apart from it.
    unsafe { raw::snapshot_figures(n, view.as_ptr(), view.len(), figures) }
}

/// Writes the desk's page of a view of n nodes at the front of `out`, and its length to `length`. Refusals: 12, 1, 7,
/// 15.
#[inline]
pub fn page(n: usize, view: &[u8], out: &mut [u8], length: &mut usize) -> u8 {
    // SAFETY: each pointer with the length of its own slice; `out` and `length` are lent by `&mut`, so they are apart
    // from each other and from the view.
    unsafe { raw::snapshot_page(n, view.as_ptr(), view.len(), out.as_mut_ptr(), out.len(), length) }
}

/// The bytes of a node's record.
#[inline]
pub fn node_size() -> usize {
    // SAFETY: nothing is lent.
    unsafe { raw::snapshot_node_size() }
}

/// Makes `state` the fresh record of node `own` of n, of which f may stop. Refusals: 1, 12.
#[inline]
pub fn node_fresh(n: usize, f: usize, own: usize, state: &mut [u8]) -> u8 {
    // SAFETY: pointer and length of one slice.
    unsafe { raw::snapshot_node_fresh(n, f, own, state.as_mut_ptr(), state.len()) }
}

/// Begins an update with this report at the node whose record is in `state`; the messages to send go to the front of
/// `out`, their length to `length`. Refusals: 12, 2, 5, 6.
#[inline]
pub fn node_begin_update(state: &mut [u8], report: &[u8; REPORT], out: &mut [u8], length: &mut usize) -> u8 {
    let (at, room) = (out.as_mut_ptr(), out.len());
    // SAFETY: each pointer with the length of its own slice; all but the report are lent by `&mut`, so no two overlap.
    unsafe { raw::snapshot_node_begin_update(state.as_mut_ptr(), state.len(), report, at, room, length) }
}

/// Begins a scan at the node, likewise. Refusals: 12, 2, 5, 6.
#[inline]
pub fn node_begin_scan(state: &mut [u8], out: &mut [u8], length: &mut usize) -> u8 {
    let (at, room) = (out.as_mut_ptr(), out.len());
    // SAFETY: each pointer with the length of its own slice; all are lent by `&mut`, so no two overlap.
    unsafe { raw::snapshot_node_begin_scan(state.as_mut_ptr(), state.len(), at, room, length) }
}

/// Handles a message from node `sender`; the messages to send go to the front of `out`, their length to `length`, and
/// the view of a scan that ends to `view`: n entries, then zeros. Refusals: 12, 2, 3, 7, 9.
#[inline]
pub fn node_message(
    state: &mut [u8],
    sender: usize,
    bytes: &[u8],
    out: &mut [u8],
    length: &mut usize,
    view: &mut [u8; VIEW],
) -> u8 {
    let (held, held_len) = (state.as_mut_ptr(), state.len());
    let (at, room) = (out.as_mut_ptr(), out.len());
    // SAFETY: each pointer with the length of its own slice; all but the message's bytes are lent by `&mut`, so no two
    // overlap.
    unsafe { raw::snapshot_node_message(held, held_len, sender, bytes.as_ptr(), bytes.len(), at, room, length, view) }
}

/// Handles the messages of a frame from node `sender` in their order, as [`node_message`] does one by one; what is lent
/// gets what they leave together. Refusals: 12, 2, 3, 14, 7, 9.
#[inline]
pub fn node_frame(
    state: &mut [u8],
    sender: usize,
    frame: &[u8],
    out: &mut [u8],
    length: &mut usize,
    view: &mut [u8; VIEW],
) -> u8 {
    let (held, held_len) = (state.as_mut_ptr(), state.len());
    let (at, room) = (out.as_mut_ptr(), out.len());
    // SAFETY: each pointer with the length of its own slice; all but the frame's bytes are lent by `&mut`, so no two
    // overlap.
    unsafe { raw::snapshot_node_frame(held, held_len, sender, frame.as_ptr(), frame.len(), at, room, length, view) }
}

/// The message at the front of an output or a frame: its length goes to `length`, and to `route` [`TO_ALL`] or
/// [`TO_SENDER`]. Refusals: 1, 7.
#[inline]
pub fn next(n: usize, bytes: &[u8], length: &mut usize, route: &mut u8) -> u8 {
    // SAFETY: pointer and length of one slice; the two numbers are lent by `&mut`, so they are apart from it and from
    // each other.
    unsafe { raw::snapshot_next(n, bytes.as_ptr(), bytes.len(), length, route) }
}
