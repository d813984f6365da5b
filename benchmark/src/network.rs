//! A network: nodes on links that lose nothing, repeat nothing and keep the order. Which link hands over next is by
//! chance, and operations begin at all nodes.
use crate::dice::Dice;
use crate::side::{is_refusal, Operation, Plain, Side, View};
use std::collections::VecDeque;

/// What a node is given.
#[derive(Clone, Debug)]
pub enum Input {
    Begin(Operation),
    Message { sender: usize, bytes: Vec<u8> },
    Frame { sender: usize, bytes: Vec<u8> },
}

impl Input {
    pub fn give<S: Side>(&self, record: &mut [u8], lent: &mut Lent) -> u8 {
        let Lent { out, length, view } = lent;
        match self {
            Input::Begin(operation) => S::node_begin(record, operation, out, length),
            Input::Message { sender, bytes } => S::node_message(record, *sender, bytes, out, length, view),
            Input::Frame { sender, bytes } => S::node_frame(record, *sender, bytes, out, length, view),
        }
    }

    /// The least length of the output that is lent for it.
    pub fn room(&self) -> usize {
        match self {
            Input::Begin(_) | Input::Message { .. } => 512,
            Input::Frame { .. } => 8192,
        }
    }
}

/// What is lent to a call beside the record: the output, its length, and the view of a scan.
#[derive(Clone, PartialEq)]
pub struct Lent {
    pub out: Vec<u8>,
    pub length: usize,
    pub view: View,
}

impl Lent {
    /// With room for so many bytes of output.
    pub fn new(room: usize) -> Lent {
        Lent { out: vec![7; room], length: 7, view: [7; 256] }
    }
}

/// An operation begins only while no link holds more than this, so that the links do not grow for ever. A link that
/// waits for more before it hands over is not counted.
const CALM: usize = 6;

/// The bytes of the longest frame, and of a read, of which it holds a hundred.
const FRAME: usize = 1500;
pub const READ: [u8; 15] = [1, 0, 1, 1, 2, 0, 8, 0, 0, 0, 0, 0, 0, 0, 1];

/// How links hand over.
#[derive(Clone, Copy)]
pub enum Packing {
    /// A message at a time.
    Single,
    /// Now and then up to so many messages in a frame.
    UpTo(usize),
    /// To node 1 just so many messages in a frame, or as many of them as it has room for; to the others one at a time.
    Full(usize),
}

pub struct Network {
    n: usize,
    dice: Dice,
    packing: Packing,
    pub records: Vec<Vec<u8>>,
    /// What is on the way from each node to each.
    links: Vec<VecDeque<Vec<u8>>>,
}

impl Network {
    /// One of n nodes, of which f may stop, though none does.
    pub fn new(n: usize, f: usize, seed: u64, packing: Packing) -> Network {
        let fresh = |own| {
            let mut record = vec![0; Plain::node_size()];
            Plain::node_fresh(n, f, own, &mut record);
            record
        };
        let records = (1..=n).map(fresh).collect();
        Network { n, dice: Dice::new(seed), packing, records, links: vec![VecDeque::new(); n * n] }
    }

    /// One begin, message or frame at a node, which `give` hands to it; what the node sends goes on its links.
    pub fn step(&mut self, mut give: impl FnMut(usize, &Input, &mut [u8], &mut Lent) -> u8) -> u8 {
        let (node, input) = self.choose();
        let mut lent = Lent::new(input.room());
        let code = give(node, &input, &mut self.records[node - 1], &mut lent);
        if !is_refusal(code) {
            self.send(node, &input, &lent.out[..lent.length]);
        }
        code
    }

    /// The node that comes next, and what it is given.
    fn choose(&mut self) -> (usize, Input) {
        let n = self.n;
        let counted = self.links.iter().enumerate().filter(|(i, _)| !self.gathers(i % n));
        let most = counted.map(|(_, link)| link.len()).max().unwrap_or(0);
        if most == 0 || most <= CALM && self.dice.chance(150) {
            let report = self.dice.number().to_be_bytes();
            let operation = if self.dice.chance(500) { Operation::Update(report) } else { Operation::Scan };
            return (self.dice.below(n) + 1, Input::Begin(operation));
        }
        loop {
            let (from, to) = (self.dice.below(n), self.dice.below(n));
            if let Some(input) = self.hand_over(from, to) {
                return (to + 1, input);
            }
        }
    }

    /// Whether the links to a node wait for more than one message, nodes counted from 0.
    fn gathers(&self, to: usize) -> bool {
        to == 0 && matches!(self.packing, Packing::Full(_))
    }

    /// What the link between two nodes, counted from 0, hands over if it is its turn.
    fn hand_over(&mut self, from: usize, to: usize) -> Option<Input> {
        let sender = from + 1;
        let link = &mut self.links[self.n * from + to];
        let count = match self.packing {
            Packing::UpTo(most) if self.dice.chance(300) => most.min(link.len()),
            Packing::Full(count) if to == 0 => count,
            _ => return link.pop_front().map(|bytes| Input::Message { sender, bytes }),
        };
        if count == 0 || link.len() < count {
            return None;
        }
        let mut bytes = link.pop_front()?;
        for _ in 1..count {
            match link.front() {
                Some(next) if bytes.len() + next.len() <= FRAME => bytes.extend(link.pop_front()?),
                _ => break,
            }
        }
        Some(Input::Frame { sender, bytes })
    }

    /// Each message of the output to all that it goes to, before the next goes to any.
    fn send(&mut self, node: usize, input: &Input, out: &[u8]) {
        let (mut at, mut length, mut route) = (0, 0, 0);
        while at < out.len() {
            let rest = &out[at..];
            assert_eq!(Plain::next(self.n, rest, &mut length, &mut route), 0, "no message in an output");
            let receivers = match input {
                Input::Message { sender, .. } | Input::Frame { sender, .. } if route == 1 => *sender..sender + 1,
                _ => 1..self.n + 1,
            };
            for k in receivers {
                self.links[self.n * (node - 1) + k - 1].push_back(rest[..length].to_vec());
            }
            at += length;
        }
    }
}
