//! A cluster in its own bytes.
use crate::lent;
use crate::operation::{ending, Ending, Operation};
use crate::refusal::{accepted, Refusal};
use crate::VIEW;
use std::fmt;

/// How much of what an event sends goes out.
#[derive(Clone, Copy, Debug, PartialEq, Eq)]
pub enum Extent {
    /// All of it.
    Whole,
    /// Its first entries, so many; then the node stops, and an ending is not given.
    Cut(usize),
}

impl Extent {
    fn cut(self) -> (bool, usize) {
        match self {
            Extent::Whole => (false, 0),
            Extent::Cut(m) => (true, m),
        }
    }
}

/// A cluster (document 01's house): n nodes and the channels between them, in one run of bytes. What waits on its
/// channels is delivered when the caller says so; this is for simulation and tests, and for a house in one machine. For
/// nodes that are apart use [`Node`](crate::Node).
pub struct Cluster {
    bytes: Vec<u8>,
}

impl Cluster {
    /// A fresh cluster of n nodes, of which f may stop; [`most_faults`](crate::most_faults) has the largest f.
    /// Refusals: 1 (n is not 1 to 16, or f is not 0 to 7 with 2f < n).
    ///
    /// ```
    /// use snapshot::{most_faults, Cluster, Refusal};
    ///
    /// let mut cluster = Cluster::fresh(5, most_faults(5))?;
    /// assert_eq!([1, 2, 3].map(|node| cluster.stop(node)), [Ok(()), Ok(()), Err(Refusal::Stops)]);
    /// let mut cluster = Cluster::fresh(5, 0)?; // all must answer
    /// assert_eq!(cluster.stop(1), Err(Refusal::Stops));
    /// # Ok::<(), Refusal>(())
    /// ```
    pub fn fresh(n: usize, f: usize) -> Result<Cluster, Refusal> {
        let mut bytes = vec![0; lent::size(n)];
        accepted(lent::fresh(n, f, &mut bytes))?;
        Ok(Cluster { bytes })
    }

    /// The cluster in these bytes, which may be any: each call judges them.
    pub fn from_bytes(bytes: Vec<u8>) -> Cluster {
        Cluster { bytes }
    }

    /// Its bytes.
    pub fn as_bytes(&self) -> &[u8] {
        &self.bytes
    }

    /// Begins an operation at a node. Refusals: 12, 2 (the bytes), 3 (no such node), 4 (it has stopped), 5 (an
    /// operation is open), 6 (too few request numbers), 10 (a cut, and no more may stop), 11 (a channel would be full).
    pub fn begin(&mut self, node: usize, operation: Operation, extent: Extent) -> Result<(), Refusal> {
        let (cut, m) = extent.cut();
        accepted(match operation {
            Operation::Update(report) => lent::begin_update(&mut self.bytes, node, &report.to_bytes(), cut, m),
            Operation::Scan => lent::begin_scan(&mut self.bytes, node, cut, m),
        })
    }

    /// Hands over what has waited longest on a channel, and answers the ending of an operation that ended by it.
    /// Refusals: 12, 2 (the bytes), 3 (no such node), 4 (the receiver has stopped), 8 (nothing waits), 7 (what waits is
    /// no message), 9 (a value that cannot come now), 10 (a cut, and no more may stop), 11 (a channel would be full).
    pub fn deliver(&mut self, from: usize, to: usize, extent: Extent) -> Result<Option<Ending>, Refusal> {
        let (cut, m) = extent.cut();
        let mut view = [0; VIEW];
        let code = lent::deliver(&mut self.bytes, from, to, cut, m, &mut view);
        let nodes = self.bytes.first().map_or(0, |&n| usize::from(n));
        ending(code, nodes, &view)
    }

    /// Stops a node for good. Refusals: 12, 2 (the bytes), 3 (no such node), 4 (it has stopped), 10 (no more may stop).
    pub fn stop(&mut self, node: usize) -> Result<(), Refusal> {
        accepted(lent::stop(&mut self.bytes, node))
    }
}

impl fmt::Debug for Cluster {
    fn fmt(&self, f: &mut fmt::Formatter) -> fmt::Result {
        f.debug_struct("Cluster").finish_non_exhaustive()
    }
}
