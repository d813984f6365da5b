//! A steady workload: updates and scans at all nodes, and deliveries in a random or a round robin order; f is the
//! largest for n. The events are chosen beforehand, so that both sides are timed on the same list.
use crate::dice::Dice;
use crate::plain::cluster::{block_at, channel_at};
use crate::side::{is_refusal, Event, Plain, Side, View};

#[derive(Clone, Copy, PartialEq)]
pub enum Order {
    Random,
    RoundRobin,
}

/// An operation begins only while no channel holds more than this, so that the channels never fill up for good.
const CALM: u8 = 6;

/// How many messages wait on a channel, if the bytes go so far.
pub fn waiting(b: &[u8], from: usize, to: usize) -> u8 {
    *b.get(block_at(to) + channel_at(from)).unwrap_or(&0)
}

/// Chooses events on a cluster of its own and keeps those that are accepted.
pub struct Workload {
    n: usize,
    order: Order,
    dice: Dice,
    next: usize,
    bytes: Vec<u8>,
}

impl Workload {
    pub fn new(n: usize, order: Order, seed: u64) -> Workload {
        let mut bytes = vec![0; Plain::size(n)];
        Plain::fresh(n, Plain::most_faults(n), &mut bytes);
        Workload { n, order, dice: Dice::new(seed), next: 0, bytes }
    }

    /// The cluster after the events so far.
    pub fn bytes(&self) -> &[u8] {
        &self.bytes
    }

    /// Fills the list with the events that come next.
    pub fn fill(&mut self, events: &mut [Event]) {
        let mut view: View = [0; 256];
        for place in events {
            let mut tries = 0;
            *place = loop {
                tries += 1;
                assert!(tries < 100_000, "the cluster came to a stand");
                let Some(event) = self.choose() else { continue };
                let code = Plain::apply(&mut self.bytes, &event, &mut view);
                if !is_refusal(code) {
                    break event;
                }
            };
        }
    }

    fn choose(&mut self) -> Option<Event> {
        let n = self.n;
        let most = (0..n * n).map(|i| waiting(&self.bytes, i / n + 1, i % n + 1)).max().unwrap_or(0);
        if most == 0 || most <= CALM && self.dice.chance(150) {
            let node = self.dice.below(n) + 1;
            return Some(if self.dice.chance(500) {
                Event::Update { node, report: self.dice.number().to_be_bytes(), cut: None }
            } else {
                Event::Scan { node, cut: None }
            });
        }
        let i = match self.order {
            Order::Random => self.dice.below(n * n),
            Order::RoundRobin => {
                self.next = (self.next + 1) % (n * n);
                self.next
            }
        };
        let (from, to) = (i / n + 1, i % n + 1);
        (waiting(&self.bytes, from, to) > 0).then_some(Event::Deliver { from, to, cut: None })
    }
}
