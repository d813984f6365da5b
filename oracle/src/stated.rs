//! What a cluster that a caller lends states of itself, and refusal 2 of begin, deliver and stop there.

use crate::cluster::{can_bear, demand, Refusal, CAPACITY};
use crate::record::{Record, NODES, UNUSABLE};

/// A cluster by what is stated in it, with any numbers.
#[derive(Clone, Debug)]
pub struct Stated {
    pub n: usize,
    pub f: usize,
    /// Nodes 1 to n.
    pub nodes: Vec<StatedNode>,
}

#[derive(Clone, Debug)]
pub struct StatedNode {
    pub stopped: bool,
    /// None where it has no wait that is known.
    pub record: Option<Record>,
    /// How many messages wait for it, by sender.
    pub waiting: Vec<usize>,
}

impl Stated {
    /// Refusal 2: n or f cannot be, a record is unusable or of another n, f or number than its place in the cluster, a
    /// channel holds too many, or more than f have stopped.
    pub fn judge(&self) -> Result<(), Refusal> {
        let Stated { n, f, ref nodes } = *self;
        let fits =
            |own: usize, record: &Record| record.judge().is_ok() && (record.n, record.f, record.own) == (n, f, own);
        let sound = |(own, node): (usize, &StatedNode)| {
            node.record.as_ref().is_some_and(|record| fits(own, record)) && node.waiting.iter().all(|&k| k <= CAPACITY)
        };
        demand((1..=NODES).contains(&n) && can_bear(n, f), UNUSABLE)?;
        demand((1..).zip(nodes).all(sound), UNUSABLE)?;
        demand(nodes.iter().filter(|node| node.stopped).count() <= f, UNUSABLE)
    }
}
