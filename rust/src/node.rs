//! One node, and what it sends.
use crate::lent;
use crate::operation::{ending, Ending, Operation};
use crate::refusal::{accepted, Refusal};
use crate::{FRAME_OUTPUT, RECORD, VIEW};
use std::fmt;

/// One node (document 01's cabinet), by its record. It handles begins and messages, these one by one or in frames; what
/// it sends is in an [`Output`], and the caller's links carry it. What they owe is in
/// [the crate's head](crate#what-the-links-owe).
///
/// Three nodes on links in memory, to the end of an update and of a scan:
///
/// ```
/// use snapshot::{most_faults, Ending, Node, Operation, Output, Refusal, Report, To};
/// use std::collections::VecDeque;
///
/// const N: usize = 3;
///
/// /// The link from each node to each, the own one too. A link loses nothing, repeats nothing and keeps the order.
/// #[derive(Default)]
/// struct Links {
///     waiting: [[VecDeque<Vec<u8>>; N]; N],
/// }
///
/// impl Links {
///     /// Node `own` sends what it put out on a message from `sender`: each message to all that it goes to, before the
///     /// next goes to any.
///     fn send(&mut self, own: usize, sender: usize, out: &Output) {
///         for (bytes, to) in out {
///             let receivers = match to {
///                 To::All => 1..=N,
///                 To::Sender => sender..=sender,
///             };
///             for k in receivers {
///                 self.waiting[own - 1][k - 1].push_back(bytes.to_vec());
///             }
///         }
///     }
/// }
///
/// /// Begins the operation at node `own`, then hands messages over until none waits; answers how it ended.
/// fn run(nodes: &mut [Node], own: usize, operation: Operation) -> Result<Option<Ending>, Refusal> {
///     let (mut links, mut out, mut told) = (Links::default(), Output::new(), None);
///     nodes[own - 1].begin(operation, &mut out)?;
///     links.send(own, own, &out); // a begin sends to all, so there is no sender to answer
///     while let Some((from, to)) = some_waiting(&links) {
///         let bytes = links.waiting[from - 1][to - 1].pop_front().unwrap();
///         if let Some(ending) = nodes[to - 1].message(from, &bytes, &mut out)? {
///             assert_eq!(to, own);
///             told = Some(ending);
///         }
///         links.send(to, from, &out);
///     }
///     Ok(told)
/// }
///
/// /// A link on which something waits: which one comes next is free.
/// fn some_waiting(links: &Links) -> Option<(usize, usize)> {
///     let all = (1..=N).flat_map(|from| (1..=N).map(move |to| (from, to)));
///     all.rev().find(|&(from, to)| !links.waiting[from - 1][to - 1].is_empty())
/// }
///
/// let mut nodes = (1..=N).map(|own| Node::fresh(N, most_faults(N), own)).collect::<Result<Vec<_>, _>>()?;
/// let report = Report { extensions: 1, lines: 2, waiting: 3, wakeups: 4 };
/// assert!(matches!(run(&mut nodes, 1, Operation::Update(report))?, Some(Ending::Done(_))));
/// let Some(Ending::Scan(_, view)) = run(&mut nodes, 2, Operation::Scan)? else { panic!("no view") };
/// assert_eq!(view.entry(1).map(|entry| entry.report), Some(report));
/// assert_eq!(view.entry(3), None);
/// # Ok::<(), Refusal>(())
/// ```
// Not `Clone`: a node goes on from its newest record alone.
pub struct Node {
    record: [u8; RECORD],
}

impl Node {
    /// A fresh node, number `own` of n, of which f may stop; [`most_faults`](crate::most_faults) has the largest f. All
    /// nodes have the same n and the same f. Refusals: 1 (n is not 1 to 16, f is not 0 to 7 with 2f < n, or `own` is
    /// not 1 to n).
    pub fn fresh(n: usize, f: usize, own: usize) -> Result<Node, Refusal> {
        let mut record = [0; RECORD];
        accepted(lent::node_fresh(n, f, own, &mut record))?;
        Ok(Node { record })
    }

    /// The node whose record is in these bytes, which may be any: each call judges them. So a record is moved, once all
    /// that the node has put out is sent; it is never put back from an older copy, and the node that it was taken from
    /// makes no further call: see [the crate's head](crate#what-the-links-owe). Refusals: 12 (not [`RECORD`] bytes).
    ///
    /// ```
    /// use snapshot::{Node, Operation, Output, Refusal};
    ///
    /// let mut node = Node::fresh(1, 0, 1)?;
    /// let mut out = Output::new();
    /// node.begin(Operation::Scan, &mut out)?;
    /// let link: Vec<Vec<u8>> = out.messages().map(|(bytes, _)| bytes.to_vec()).collect(); // all of it is sent
    /// let moved = *node.as_bytes();
    /// drop(node);
    ///
    /// let mut node = Node::from_bytes(&moved)?;
    /// assert_eq!(node.message(1, &link[0], &mut out)?, None); // and it goes on where it was
    /// assert_eq!(out.messages().count(), 1);
    /// assert_eq!(Node::from_bytes(&moved[1..]).err(), Some(Refusal::Length));
    /// # Ok::<(), Refusal>(())
    /// ```
    pub fn from_bytes(bytes: &[u8]) -> Result<Node, Refusal> {
        let record = bytes.try_into().map_err(|_| Refusal::Length)?;
        Ok(Node { record })
    }

    /// Its record.
    pub fn as_bytes(&self) -> &[u8; RECORD] {
        &self.record
    }

    /// The number of nodes, which is good in a record that a call has accepted.
    fn nodes(&self) -> usize {
        usize::from(self.record[7])
    }

    /// Begins an operation; what is to be sent is in `out`. Refusals: 2 (the record is not usable), 5 (an operation is
    /// open), 6 (fewer than five request numbers are left); `out` is empty then.
    pub fn begin(&mut self, operation: Operation, out: &mut Output) -> Result<(), Refusal> {
        out.length = 0;
        let (record, bytes, length) = (&mut self.record, &mut out.bytes, &mut out.length);
        accepted(match operation {
            Operation::Update(report) => lent::node_begin_update(record, &report.to_bytes(), bytes, length),
            Operation::Scan => lent::node_begin_scan(record, bytes, length),
        })?;
        out.nodes = self.nodes();
        Ok(())
    }

    /// Handles a message from node `sender`; what is to be sent is in `out`. Answers the ending of an operation that
    /// ended by it. Refusals: 2 (the record is not usable), 3 (the sender is not 1 to n), 7 (the bytes are not one
    /// message), 9 (a value that cannot come now); `out` is empty then.
    ///
    /// Where all keep the rules, none of these is to be expected. A node that meets one should stop for good, which the
    /// others bear: to go on would be to lose a message, which they do not.
    pub fn message(&mut self, sender: usize, bytes: &[u8], out: &mut Output) -> Result<Option<Ending>, Refusal> {
        self.handle(lent::node_message, sender, bytes, out)
    }

    /// Handles a frame from node `sender`: one or more whole messages, one after the other, [`FRAME`](crate::FRAME)
    /// bytes at most. They are handled in their order, each as by [`Node::message`]; what is to be sent of all of them
    /// is in `out`, and what goes to the sender goes to that of the frame. Answers the ending of an operation that
    /// ended by one of them: there is one at most.
    ///
    /// Refusals: 2 (the record is not usable), 3 (the sender is not 1 to n), 14 (the frame is empty or too long), 7 (a
    /// message, wherever it stands, is none of the layout), 9 (a message, after those before it, is a value that cannot
    /// come now). Nothing of the frame has taken effect then, and `out` is empty. A node that meets one should stop for
    /// good, as for a message.
    ///
    /// ```
    /// use snapshot::{Message, Node, Output, Refusal, To, FRAME};
    ///
    /// let mut frame = [0; FRAME];
    /// let mut length = 0;
    /// for request in 1..=100 {
    ///     length += Message::Read { request }.write(3, &[], &mut frame[length..])?;
    /// }
    /// assert_eq!(length, FRAME);
    ///
    /// let (mut node, mut out) = (Node::fresh(3, 1, 1)?, Output::new());
    /// assert_eq!(node.frame(2, &frame, &mut out)?, None);
    /// for (request, (bytes, to)) in (1..=100).zip(&out) {
    ///     assert_eq!(Message::read(3, bytes)?.0, Message::ReadAnswer { request, tag: 0 });
    ///     assert_eq!(to, To::Sender); // to node 2
    /// }
    /// assert_eq!(out.messages().count(), 100);
    /// # Ok::<(), Refusal>(())
    /// ```
    pub fn frame(&mut self, sender: usize, frame: &[u8], out: &mut Output) -> Result<Option<Ending>, Refusal> {
        self.handle(lent::node_frame, sender, frame, out)
    }

    /// Hands bytes over by this call.
    fn handle(&mut self, call: Call, sender: usize, bytes: &[u8], out: &mut Output) -> Result<Option<Ending>, Refusal> {
        out.length = 0;
        let mut view = [0; VIEW];
        let code = call(&mut self.record, sender, bytes, &mut out.bytes, &mut out.length, &mut view);
        let told = ending(code, self.nodes(), &view)?;
        out.nodes = self.nodes();
        Ok(told)
    }
}

/// [`lent::node_message`] or [`lent::node_frame`].
type Call = fn(&mut [u8], usize, &[u8], &mut [u8], &mut usize, &mut [u8; VIEW]) -> u8;

impl fmt::Debug for Node {
    fn fmt(&self, f: &mut fmt::Formatter) -> fmt::Result {
        f.debug_struct("Node").finish_non_exhaustive()
    }
}

/// Whom a message goes to.
#[derive(Clone, Copy, Debug, PartialEq, Eq)]
pub enum To {
    /// All nodes, 1 to n in turn, the own one too.
    All,
    /// The sender of the message, or of the frame, that was handled.
    Sender,
}

/// What a node sends: the messages of its last begin, message or frame, each once, in the order in which they leave. It
/// is lent to each call and may serve again: it has the [`FRAME_OUTPUT`] bytes that a frame asks, so any call of a node
/// takes it. Where memory is short, [`lent`] takes [`OUTPUT`](crate::OUTPUT) bytes for a begin or a message.
///
/// ```
/// use snapshot::{Message, Node, Operation, Output, Refusal, To};
///
/// let mut out = Output::new();
/// Node::fresh(3, 1, 1)?.begin(Operation::Scan, &mut out)?;
/// let (bytes, to) = out.messages().next().unwrap();
/// assert_eq!(Message::read(3, bytes)?.0, Message::Read { request: 1 });
/// assert_eq!(to, To::All);
/// # Ok::<(), Refusal>(())
/// ```
pub struct Output {
    nodes: usize,
    bytes: [u8; FRAME_OUTPUT],
    length: usize,
}

impl Output {
    /// One with nothing to send.
    pub fn new() -> Output {
        Output { nodes: 0, bytes: [0; FRAME_OUTPUT], length: 0 }
    }

    /// The messages one after the other, as they stand in memory.
    pub fn as_bytes(&self) -> &[u8] {
        &self.bytes[..self.length]
    }

    /// Each message with whom it goes to.
    pub fn messages(&self) -> Messages<'_> {
        Messages { nodes: self.nodes, rest: self.as_bytes() }
    }
}

impl fmt::Debug for Output {
    fn fmt(&self, f: &mut fmt::Formatter) -> fmt::Result {
        f.debug_list().entries(self).finish()
    }
}

impl Default for Output {
    fn default() -> Output {
        Output::new()
    }
}

impl<'a> IntoIterator for &'a Output {
    type Item = (&'a [u8], To);
    type IntoIter = Messages<'a>;

    fn into_iter(self) -> Messages<'a> {
        self.messages()
    }
}

/// The messages of an [`Output`], in their order.
#[derive(Clone, Debug)]
pub struct Messages<'a> {
    nodes: usize,
    rest: &'a [u8],
}

impl<'a> Iterator for Messages<'a> {
    type Item = (&'a [u8], To);

    fn next(&mut self) -> Option<(&'a [u8], To)> {
        if self.rest.is_empty() {
            return None;
        }
        let (mut length, mut route) = (0, 0);
        accepted(lent::next(self.nodes, self.rest, &mut length, &mut route)).expect("an output is messages");
        let (message, rest) = self.rest.split_at(length);
        self.rest = rest;
        let to = if route == lent::TO_ALL { To::All } else { To::Sender };
        Some((message, to))
    }
}
