//! A cluster: n nodes and a first-in first-out channel from each to each, itself included. Document 01 calls it a
//! house, with cabinets and trunks.
//!
//! An event is accepted or refused. A refused one leaves everything as it was.

use crate::message::{Message, NodeId};
use crate::node::{Ending, Node, Operation, Step, To};
use crate::record::{BAD_NUMBER, NODES};
use std::collections::VecDeque;

/// The most messages that wait on one channel.
pub const CAPACITY: usize = 16;

/// An operation needs at most this many request numbers.
pub const REQUESTS: u64 = 5;

/// The largest f that there is.
const LARGEST_F: usize = 7;

/// Whether f of n nodes may stop: 0 to 7, and fewer than half of them, so that any two quorums meet.
pub fn can_bear(n: usize, f: usize) -> bool {
    f <= LARGEST_F && 2 * f < n
}

/// The largest f with 2f < n, and 0 where there is none.
pub fn most_faults(n: usize) -> usize {
    n.saturating_sub(1) / 2
}

/// How much of a step's list an event lets out: all, or its first entries, after which the node stops.
#[derive(Clone, Copy, Debug, PartialEq, Eq)]
pub enum Extent {
    Whole,
    Cut(usize),
}

/// What may happen, with any numbers.
#[derive(Clone, Copy, Debug, PartialEq, Eq)]
pub enum Event {
    Begin { node: NodeId, operation: Operation, extent: Extent },
    Deliver { from: NodeId, to: NodeId, extent: Extent },
    Stop { node: NodeId },
}

impl Event {
    /// The node that handles the event.
    pub fn node(&self) -> NodeId {
        match *self {
            Event::Begin { node, .. } | Event::Stop { node } => node,
            Event::Deliver { to, .. } => to,
        }
    }

    /// Whether the node stops with the event.
    pub fn stops(&self) -> bool {
        match self {
            Event::Begin { extent, .. } | Event::Deliver { extent, .. } => *extent != Extent::Whole,
            Event::Stop { .. } => true,
        }
    }
}

/// A refusal, by its number in document 01.
#[derive(Clone, Copy, Debug, PartialEq, Eq, PartialOrd, Ord)]
pub struct Refusal(pub u8);

pub const BAD_LINE: Refusal = Refusal(1);
pub const NO_SUCH_NODE: Refusal = Refusal(3);
pub const STOPPED: Refusal = Refusal(4);
pub const OPERATION_OPEN: Refusal = Refusal(5);
pub const REQUESTS_USED_UP: Refusal = Refusal(6);
pub const NOTHING_WAITS: Refusal = Refusal(8);
pub const TOO_MANY_STOPS: Refusal = Refusal(10);
pub const CHANNEL_FULL: Refusal = Refusal(11);

/// What an accepted event gave: the ending, if any, and the entries let out, those to stopped nodes among them.
#[derive(Debug, Default)]
pub struct Accepted {
    pub ending: Option<Ending>,
    pub let_out: Vec<(NodeId, Message)>,
}

pub type Outcome = Result<Accepted, Refusal>;

#[derive(Clone)]
pub struct Cluster {
    n: usize,
    /// How many nodes may stop.
    f: usize,
    /// Index 0 is unused, here and in the channels.
    nodes: Vec<Node>,
    stopped: Vec<bool>,
    /// What waits from one node to another, oldest first.
    channels: Vec<Vec<VecDeque<Message>>>,
}

impl Cluster {
    pub fn fresh(n: usize, f: usize) -> Result<Cluster, Refusal> {
        demand((1..=NODES).contains(&n) && can_bear(n, f), BAD_NUMBER)?;
        Ok(Cluster {
            n,
            f,
            nodes: (0..=n).map(|id| Node::fresh(n, f, id)).collect(),
            stopped: vec![false; n + 1],
            channels: vec![vec![VecDeque::new(); n + 1]; n + 1],
        })
    }

    pub fn n(&self) -> usize {
        self.n
    }

    pub fn stands(&self, node: NodeId) -> bool {
        !self.stopped[node]
    }

    pub fn is_idle(&self, node: NodeId) -> bool {
        self.nodes[node].is_idle()
    }

    pub fn channel(&self, from: NodeId, to: NodeId) -> &VecDeque<Message> {
        &self.channels[from][to]
    }

    /// One event. The refusals are tried in document 01's order.
    pub fn event(&mut self, event: &Event) -> Outcome {
        match *event {
            Event::Begin { node, operation, extent } => {
                self.demand_standing(node)?;
                demand(self.nodes[node].is_idle(), OPERATION_OPEN)?;
                demand(self.nodes[node].requests_left() >= REQUESTS, REQUESTS_USED_UP)?;
                self.demand_stoppable(event)?;
                let mut after = self.nodes[node].clone();
                let step = after.begin(operation);
                self.settle(node, after, step, extent, None)
            }
            Event::Deliver { from, to, extent } => {
                demand((1..=self.n).contains(&from), NO_SUCH_NODE)?;
                self.demand_standing(to)?;
                let message = self.channels[from][to].front().cloned().ok_or(NOTHING_WAITS)?;
                self.demand_stoppable(event)?;
                let mut after = self.nodes[to].clone();
                let step = after.receive(from, message);
                self.settle(to, after, step, extent, Some(from))
            }
            Event::Stop { node } => {
                self.demand_standing(node)?;
                self.demand_stoppable(event)?;
                self.stop(node);
                Ok(Accepted::default())
            }
        }
    }

    fn demand_standing(&self, node: NodeId) -> Result<(), Refusal> {
        demand((1..=self.n).contains(&node), NO_SUCH_NODE)?;
        demand(self.stands(node), STOPPED)
    }

    /// An event that stops its node needs one of the f stops.
    fn demand_stoppable(&self, event: &Event) -> Result<(), Refusal> {
        let stopped = self.stopped.iter().filter(|&&stopped| stopped).count();
        demand(!event.stops() || stopped < self.f, TOO_MANY_STOPS)
    }

    /// Lets out what the extent allows, if every channel has room for it, and only then changes the cluster. The node
    /// is given as the step left it. A delivery has taken its message off the channel from `delivered`.
    fn settle(&mut self, node: NodeId, after: Node, step: Step, extent: Extent, delivered: Option<NodeId>) -> Outcome {
        let mut let_out = entries(self.n, step.sent);
        if let Extent::Cut(m) = extent {
            let_out.truncate(m);
        }
        let stays = |to: NodeId| self.stands(to) && !(extent != Extent::Whole && to == node);
        for to in (1..=self.n).filter(|&to| stays(to)) {
            let taken = usize::from(delivered == Some(node) && to == node);
            let added = let_out.iter().filter(|entry| entry.0 == to).count();
            demand(self.channels[node][to].len() - taken + added <= CAPACITY, CHANNEL_FULL)?;
        }

        if let Some(from) = delivered {
            self.channels[from][node].pop_front();
        }
        for (to, message) in &let_out {
            if self.stands(*to) {
                self.channels[node][*to].push_back(message.clone());
            }
        }
        self.nodes[node] = after;
        if extent == Extent::Whole {
            return Ok(Accepted { ending: step.ending, let_out });
        }
        self.stop(node);
        Ok(Accepted { ending: None, let_out })
    }

    /// The node stops and what waits for it is gone. What it sent to others stays.
    fn stop(&mut self, node: NodeId) {
        self.stopped[node] = true;
        for from in 1..=self.n {
            self.channels[from][node].clear();
        }
    }
}

pub(crate) fn demand(condition: bool, refusal: Refusal) -> Result<(), Refusal> {
    if condition {
        Ok(())
    } else {
        Err(refusal)
    }
}

/// The entries of a list of messages: an answer is one, any other message is one to each node in turn.
pub fn entries(n: usize, sent: Vec<(To, Message)>) -> Vec<(NodeId, Message)> {
    let mut entries = vec![];
    for (to, message) in sent {
        match to {
            To::One(node) => entries.push((node, message)),
            To::All => entries.extend((1..=n).map(|node| (node, message.clone()))),
        }
    }
    entries
}
