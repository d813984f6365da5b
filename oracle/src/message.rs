//! What nodes send to each other, and the plain values in it.

/// A node's number, 1 to n. Document 01 calls a node a cabinet.
pub type NodeId = usize;

/// Document 01's stamp.
pub type Tag = u64;

/// The largest tag, and the largest request number.
pub const LIMIT: u64 = (1 << 63) - 1;

/// The eight bytes of a report, read as one number.
pub type Report = u64;

/// A report with its place in history. The order is by tag first, so that the values up to a tag are a range of a set.
#[derive(Clone, Copy, Debug, PartialEq, Eq, PartialOrd, Ord)]
pub struct Value {
    pub tag: Tag,
    pub writer: NodeId,
    pub report: Report,
}

/// For each node from 1 on: the tag and report of its newest value, if there is one.
pub type View = Vec<Option<(Tag, Report)>>;

#[derive(Clone, Debug, PartialEq, Eq)]
pub enum Message {
    Read { request: u64 },
    ReadAnswer { request: u64, tag: Tag },
    Write { request: u64, tag: Tag },
    WriteAnswer { request: u64, tag: Tag },
    Echo { tag: Tag },
    Value(Value),
    Good { tag: Tag, view: View },
}

impl Message {
    /// An answer goes to the sender of the message handled, every other kind to all.
    pub fn is_answer(&self) -> bool {
        matches!(self, Message::ReadAnswer { .. } | Message::WriteAnswer { .. })
    }
}
