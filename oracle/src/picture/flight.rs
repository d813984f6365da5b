//! The ways of the messages of a session: from the event that let each out to the event that handed it over.

use crate::cluster::Event;
use crate::message::{Message, NodeId};
use crate::session::Played;
use std::collections::VecDeque;

/// A message to one node.
pub struct Flight {
    pub from: NodeId,
    pub to: NodeId,
    /// A place in the list of kinds.
    pub kind: usize,
    /// The number of the event that let it out.
    pub start: usize,
    /// The number of the event that handed it over, if one did.
    pub end: Option<usize>,
}

/// The kinds of messages, least telling first.
pub const KINDS: [&str; 7] = ["read", "read answer", "write", "write answer", "echo", "good", "value"];

fn kind(message: &Message) -> usize {
    match message {
        Message::Read { .. } => 0,
        Message::ReadAnswer { .. } => 1,
        Message::Write { .. } => 2,
        Message::WriteAnswer { .. } => 3,
        Message::Echo { .. } => 4,
        Message::Good { .. } => 5,
        Message::Value(_) => 6,
    }
}

/// The messages of a session of n nodes, in the order in which they were let out.
pub fn flights(n: usize, played: &[Played]) -> Vec<Flight> {
    let mut flights: Vec<Flight> = vec![];
    // What was let out and not handed over, oldest first, as places in the list. The channels to a stopped node are
    // not emptied here, which makes no difference: nothing on them is handed over any more.
    let mut channels: Vec<Vec<VecDeque<usize>>> = vec![vec![VecDeque::new(); n + 1]; n + 1];
    for Played { number, event, outcome } in played {
        let (Some(event), Ok(accepted)) = (event, outcome) else { continue };
        let from = event.node();
        if let Event::Deliver { from, to, .. } = *event {
            if let Some(oldest) = channels[from][to].pop_front() {
                flights[oldest].end = Some(*number);
            }
        }
        for (to, message) in &accepted.let_out {
            channels[from][*to].push_back(flights.len());
            flights.push(Flight { from, to: *to, kind: kind(message), start: *number, end: None });
        }
    }
    flights
}
