//! The proved atomic snapshot for Rust: an exchange of up to sixteen nodes posts reports, and a scan shows all of them
//! together, never one node's present with another's past, although messages arrive in any order and some nodes may
//! stop for good. What is proved, and of what, is in the project's README; this crate calls that code, which
//! `rt lib --cpu x86-64` in `crates/snapshot` builds, and needs no `unsafe` of its users.
//!
//! - [`Node`] is one node, for nodes that are apart: the caller's links carry the messages of its [`Output`].
//! - [`Cluster`] is all nodes and the channels between them in one run of bytes.
//! - [`Message`], [`View`], [`Report`] and [`figures`] read and write what crosses; [`page`] prints a view.
//! - [`lent`] has the calls one by one, on lent bytes.
//!
//! Every call takes any numbers and any bytes, and gives its result or one [`Refusal`]. A refusal leaves the record,
//! the cluster and all bytes that were lent as they were; an [`Output`] is empty after it, so that nothing is sent
//! twice.
//!
//! The session of document 01, on a cluster of one: an update, eleven deliveries, a scan, six deliveries.
//!
//! ```
//! use snapshot::{Cluster, Ending, Extent, Operation, Refusal, Report};
//!
//! let mut cluster = Cluster::fresh(1, 0)?; // of one node none may stop
//! let report = Report { extensions: 1, lines: 2, waiting: 3, wakeups: 4 };
//! let mut told = Vec::new();
//! for event in 1..=19 {
//!     let ending = match event {
//!         1 => cluster.begin(1, Operation::Update(report), Extent::Whole).map(|()| None),
//!         13 => cluster.begin(1, Operation::Scan, Extent::Whole).map(|()| None),
//!         _ => cluster.deliver(1, 1, Extent::Whole),
//!     };
//!     match ending {
//!         Ok(None) => (),
//!         Ok(Some(Ending::Done(_))) => told.push(format!("{event} done 1")),
//!         Ok(Some(Ending::Spent)) => told.push(format!("{event} spent 1")),
//!         Ok(Some(Ending::Scan(_, view))) => {
//!             let shown = view.entry(1).unwrap().report;
//!             assert_eq!(shown, report);
//!             told.push(format!("{event} scan 1 {:016x}", u64::from_be_bytes(shown.to_bytes())));
//!         }
//!         Err(refusal) => told.push(format!("{event} no {}", refusal.number())),
//!     }
//! }
//! assert_eq!(told, ["11 done 1", "17 scan 1 0001000200030004", "19 no 8"]);
//! # Ok::<(), Refusal>(())
//! ```
//!
//! # What the links owe
//!
//! Who runs a [`Node`] on links of their own owes these rules. That all operations have one single order rests on them:
//!
//! 1. A link, one from each node to each, loses no message, repeats none, alters none and keeps their order. It may be
//!    as slow as it likes, and which link hands over next is free.
//! 2. The messages of an output are sent in their order: message k goes to all that it goes to before message k + 1
//!    goes to any. So a node that stops while it sends has sent a first part of its list.
//! 3. A node gets its own messages too: what goes to all goes to nodes 1 to n in turn, the sender among them.
//! 4. All messages of an output are sent before the node's next call, and before an ending that came with them is told.
//! 5. A record is never put back from an older copy, nor made fresh again: the others would hear the node contradict
//!    itself. It may be moved. A node that has lost its record, or was interrupted in the middle of a call or of
//!    sending, has stopped and does not come back.
//! 6. All nodes have the same n and the same f, each its own number, and each has started fresh. No message carries f,
//!    so no call finds out that two nodes differ in it.
//! 7. A link may hand over its oldest messages together, whole and in their order, as a frame ([`Node::frame`]). Who
//!    packs messages before they are sent owes rule 2 all the same: no message leaves in a frame for one node before
//!    all that stand before it have left for the others.
//!
//! Fewer than half of the nodes may stop: f of n, where f is what all nodes were made with, 0 to [`most_faults`] of n.
//! With a smaller f fewer may stop, and an operation waits for a larger quorum, which is n − f nodes. While no more
//! than f have stopped, each operation at a node that stands is to end, once all messages to nodes that stand are
//! handed over. Both are proved, for every such f, of the algorithm on links with room for anything. Of each call it is
//! proved that it does what its definition says, and that definition follows the algorithm's step for each message that
//! a run hands over. That a whole house of such calls does the algorithm's run is proved of a [`Cluster`], and not yet
//! of links of one's own.
#![deny(missing_docs, missing_debug_implementations, unsafe_code)]

mod cluster;
#[allow(unsafe_code)]
pub mod lent;
mod message;
mod node;
mod operation;
mod raw;
mod refusal;
mod view;

pub use cluster::{Cluster, Extent};
pub use lent::most_faults;
pub use message::Message;
pub use node::{Messages, Node, Output, To};
pub use operation::{Ending, Operation, Rule};
pub use refusal::Refusal;
pub use view::{figures, page, page_size, Entry, Figures, Report, View};

/// The bytes of a node's record.
pub const RECORD: usize = 3176;

/// The least bytes of an output, but for a frame's: what one begin or one message sends never takes more.
pub const OUTPUT: usize = 512;

/// The bytes of the longest message, a good one of sixteen nodes.
pub const LONGEST: usize = 274;

/// The most bytes of a frame: whole messages of one sender, one after the other.
pub const FRAME: usize = 1500;

/// The bytes of an [`Output`], and the least that are lent for a frame: what its messages give rise to never takes
/// more.
pub const FRAME_OUTPUT: usize = 8192;

/// The bytes of a view of sixteen nodes; one of n nodes has 16n.
pub const VIEW: usize = 256;

/// The bytes of a report.
pub const REPORT: usize = 8;

/// The bytes of a line of the desk's [`page`]: 34 columns and a line feed.
pub const LINE: usize = 35;
