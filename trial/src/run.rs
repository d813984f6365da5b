//! A network of proved nodes on links, beside the oracle's nodes over sets; and on the way, cases thrown from its
//! records.

use crate::case::{Call, Case};
use crate::stored::{self, SIZE};
use crate::tally::{with_f, CUT_HALFWAY, RUN, RUN_FRAME};
use crate::throw::Trial;
use oracle::cluster::{entries, Accepted, Event};
use oracle::dice::Dice;
use oracle::message::{Message, NodeId};
use oracle::network::{Happening, Network};
use oracle::node::{Node, Step};
use oracle::order;
use oracle::session::Played;
use oracle::wire;

/// Cases thrown beside each event.
const THROWN: usize = 5;

/// The nodes of a network by the two other roads: records in bytes for the proved calls, and sets. Index 0 is unused.
struct Nodes {
    records: Vec<Vec<u8>>,
    sets: Vec<Node>,
}

/// Runs one network for a while. Its first difference ends it.
pub fn network(trial: &mut Trial) {
    let mut network = Network::draw(Dice::new(trial.dice.number()));
    let n = network.n();
    let Some(mut nodes) = start(trial, &network) else { return };
    let mut played = vec![];
    for number in 1..=300 + 25 * n {
        let Some(happening) = network.next_event() else { break };
        if step(trial, &network, &mut nodes, &happening).is_none() {
            return;
        }
        if is_cut_halfway(n, &happening) {
            trial.tally.count(CUT_HALFWAY);
        }
        let ending = if happening.event.stops() { None } else { happening.step.ending };
        let accepted = Accepted { ending, let_out: happening.let_out };
        played.push(Played { number, event: Some(happening.event), outcome: Ok(accepted) });
        for _ in 0..THROWN {
            let node = 1 + trial.dice.below(n);
            trial.throw(&nodes.records[node], &waiting(&network, node));
        }
    }
    let order = order::check(n, &played).map_err(|why| format!("the order of a network: {why}"));
    trial.keep(order);
    trial.tally.count(format!("networks of {n:>2} nodes"));
    trial.tally.count(with_f(network.f()));
}

/// Whether the node stopped when some of its list was let out, and not all.
fn is_cut_halfway(n: usize, happening: &Happening) -> bool {
    let all = entries(n, happening.step.sent.clone()).len();
    (1..all).contains(&happening.let_out.len())
}

/// The network's nodes as it starts.
fn start(trial: &mut Trial, network: &Network) -> Option<Nodes> {
    let (n, f) = (network.n(), network.f());
    let mut nodes = Nodes { records: vec![vec![]], sets: vec![Node::fresh(n, f, 0)] };
    for own in 1..=n {
        let record = network.record(own);
        let mut bytes = trial.fresh(n, f, own, SIZE)?;
        if (record.max_tag, record.request) != (0, 0) {
            // Old nodes were fresh once; only these two numbers tell.
            bytes = stored::bytes(&stored::write(record));
        }
        nodes.records.push(bytes);
        nodes.sets.push(Node::old(n, f, own, record.max_tag, record.request));
    }
    Some(nodes)
}

/// One event of the network by the two other roads.
fn step(trial: &mut Trial, network: &Network, nodes: &mut Nodes, happening: &Happening) -> Option<()> {
    let node = happening.event.node();
    let (call, by_sets) = match happening.event {
        Event::Begin { operation, .. } => (Call::Begin(operation), vec![nodes.sets[node].begin(operation)]),
        Event::Deliver { from, .. } => {
            let received = happening.messages.iter().map(|message| nodes.sets[node].receive(from, message.clone()));
            (delivery(&mut trial.dice, from, &happening.messages), received.collect())
        }
        Event::Stop { .. } => return Some(()),
    };
    let (framed, output) = (matches!(call, Call::Frame { .. }), call.least_output());
    let agreed = trial.call(&Case { record: nodes.records[node].clone(), call, output })?;
    trial.tally.count(format!("{RUN}: {}", agreed.code));
    if framed {
        trial.tally.count(format!("{RUN_FRAME}: {}", agreed.code));
    }
    nodes.records[node] = agreed.record;
    let same = agreed.steps.as_ref() == Some(&by_sets) && Step::joined(&by_sets) == happening.step;
    let kept = nodes.records[node] == stored::bytes(&stored::write(network.record(node)));
    if same && kept {
        return Some(());
    }
    let difference = format!("a step of a network: {:?}, by sets {by_sets:?}", agreed.steps);
    trial.keep(Err(difference))
}

/// How what is delivered crosses: several messages in a frame, one by itself or, now and then, in a frame too.
fn delivery(dice: &mut Dice, sender: NodeId, messages: &[Message]) -> Call {
    let bytes = messages.iter().flat_map(wire::write).collect();
    if messages.len() > 1 || dice.chance(50) {
        Call::Frame { sender, bytes }
    } else {
        Call::Message { sender, bytes }
    }
}

/// What waits for a node, the oldest of each link, with its sender.
fn waiting(network: &Network, node: NodeId) -> Vec<(NodeId, Message)> {
    (1..=network.n()).filter_map(|from| Some((from, network.link(from, node).front()?.clone()))).collect()
}
