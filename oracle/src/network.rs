//! A network: records on links that take any number of messages, and by dice what happens next. Whoever watches does
//! the same with other nodes and compares.

use crate::cluster::{entries, Event, Extent, REQUESTS};
use crate::dice::Dice;
use crate::habits::{faults, Habits, Weather};
use crate::message::{Message, NodeId, LIMIT};
use crate::node::{Ending, Operation, Rule, Step};
use crate::record::{Record, LEAST_FRAME_OUTPUT, LEAST_OUTPUT, LONGEST_FRAME, NODES};
use crate::wire;
use std::collections::VecDeque;

pub struct Network {
    pub dice: Dice,
    habits: Habits,
    weather: Weather,
    /// How often, in a thousand deliveries, a link hands over several messages in a frame, if so many wait.
    frames: usize,
    n: usize,
    f: usize,
    /// Index 0 is unused, here and in the links.
    records: Vec<Option<Record>>,
    stopped: Vec<bool>,
    /// What waits from one node to another, oldest first.
    links: Vec<Vec<VecDeque<Message>>>,
}

/// One event as it went.
pub struct Happening {
    pub event: Event,
    /// The messages of a delivery: one, or those of a frame.
    pub messages: Vec<Message>,
    /// All that the step gave, and what of it was let out; nothing where a node only stops.
    pub step: Step,
    pub let_out: Vec<(NodeId, Message)>,
}

impl Network {
    /// A network of nodes that are fresh or, all of them, old: near the last tag, each near its last request number.
    pub fn draw(mut dice: Dice) -> Network {
        let n = dice.pick(&[1, 2, 2, 3, 3, 3, 4, 4, 5, 5, 5, 6, 7, 8, 9, 11, 13, 15, NODES]);
        let f = faults(&mut dice, n);
        let old = dice.chance(400);
        let max_tag = if old { LIMIT - dice.pick(&[0, 1, 2, 3, 5, 8, 13, 100]) } else { 0 };
        let mut record = |own| {
            let mut record = Record::fresh(n, f, own).ok()?;
            record.max_tag = max_tag;
            record.request = if old { LIMIT - dice.pick(&[4, 5, 6, 8, 11, 15, 20, 40]) } else { 0 };
            Some(record)
        };
        let records = (0..=n).map(&mut record).collect();
        let habits = Habits::draw(&mut dice, n);
        let weather = Weather::draw(&mut dice, n);
        let frames = dice.pick(&[0, 100, 500, 1000]);
        let links = vec![vec![VecDeque::new(); n + 1]; n + 1];
        Network { dice, habits, weather, frames, n, f, records, stopped: vec![false; n + 1], links }
    }

    pub fn n(&self) -> usize {
        self.n
    }

    pub fn f(&self) -> usize {
        self.f
    }

    pub fn record(&self, node: NodeId) -> &Record {
        self.records[node].as_ref().expect("every node from 1 to n has a record")
    }

    /// What waits from one node to another, oldest first.
    pub fn link(&self, from: NodeId, to: NodeId) -> &VecDeque<Message> {
        &self.links[from][to]
    }

    /// The next event, played; none where nothing can happen any more.
    pub fn next_event(&mut self) -> Option<Happening> {
        if self.dice.chance(self.habits.changes) {
            self.weather = Weather::draw(&mut self.dice, self.n);
        }
        let (event, count) = self.choose()?;
        let node = event.node();
        let mut messages = vec![];
        let (step, extent) = match event {
            Event::Begin { operation, extent, .. } => (self.begun(node, operation), extent),
            Event::Deliver { from, extent, .. } => {
                let step = self.delivered(from, node, count);
                messages.extend(self.links[from][node].drain(..count));
                (step, extent)
            }
            Event::Stop { .. } => ((self.record(node).clone(), Step::default()), Extent::Whole),
        };
        let (after, step) = step;
        self.records[node] = Some(after);
        let mut let_out = entries(self.n, step.sent.clone());
        if let Extent::Cut(m) = extent {
            let_out.truncate(m);
        }
        self.stopped[node] |= event.stops();
        for (to, message) in let_out.iter().filter(|entry| !self.stopped[entry.0]) {
            self.links[node][*to].push_back(message.clone());
        }
        if event.stops() {
            (1..=self.n).for_each(|from| self.links[from][node].clear());
        }
        Some(Happening { event, messages, step, let_out })
    }

    /// What a begin leaves of its node's record, and gives.
    fn begun(&self, node: NodeId, operation: Operation) -> (Record, Step) {
        let mut after = self.record(node).clone();
        let step = after.begin(operation, LEAST_OUTPUT).expect("only an idle node begins");
        (after, step)
    }

    /// The same of a delivery of so many messages.
    fn delivered(&self, from: NodeId, to: NodeId, count: usize) -> (Record, Step) {
        let bytes: Vec<u8> = self.links[from][to].iter().take(count).flat_map(wire::write).collect();
        let mut after = self.record(to).clone();
        let step = match count {
            1 => after.message(from, &bytes, LEAST_OUTPUT),
            _ => after.frame(from, &bytes, LEAST_FRAME_OUTPUT).map(|steps| Step::joined(&steps)),
        };
        (after, step.expect("what a link brings is never refused"))
    }

    /// What happens next, and how many messages are delivered by it.
    fn choose(&mut self) -> Option<(Event, usize)> {
        let stoppable = self.stopped.iter().filter(|&&stopped| stopped).count() < self.f;
        if stoppable && self.dice.chance(self.habits.stops) {
            let standing: Vec<NodeId> = (1..=self.n).filter(|&node| !self.stopped[node]).collect();
            return Some((Event::Stop { node: self.dice.pick(&standing) }, 0));
        }
        let ready = |&node: &NodeId| {
            let record = self.record(node);
            !self.stopped[node] && record.wait.is_none() && LIMIT - record.request >= REQUESTS
        };
        let ready: Vec<NodeId> = (1..=self.n).filter(ready).collect();
        let waiting = self.waiting();
        let begins = waiting.is_empty() || self.dice.chance(self.habits.begins);
        if !ready.is_empty() && begins {
            let node = self.dice.pick(&ready);
            let update = self.dice.chance(self.habits.updates);
            let operation = if update { Operation::Update(self.dice.number()) } else { Operation::Scan };
            let extent = self.extent(stoppable, |network| network.begun(node, operation).1);
            return Some((Event::Begin { node, operation, extent }, 0));
        }
        let (from, to) = self.pick(&waiting)?;
        let count = self.count(from, to);
        let extent = self.extent(stoppable, |network| network.delivered(from, to, count).1);
        Some((Event::Deliver { from, to, extent }, count))
    }

    /// How many messages the link hands over: one, or as many as a frame has room for, or some of these. The victim is
    /// spared what would end its operation by a round here too.
    fn count(&mut self, from: NodeId, to: NodeId) -> usize {
        if !self.dice.chance(self.frames) {
            return 1;
        }
        let mut size = 0;
        let has_room = |message: &&Message| {
            size += wire::write(message).len();
            size <= LONGEST_FRAME
        };
        let most = self.links[from][to].iter().take_while(has_room).count();
        let some = 1 + self.dice.below(most);
        let count = self.dice.pick(&[some, most]);
        if self.habits.victim == Some(to) && self.ends_by_a_round(from, to, count) {
            1
        } else {
            count
        }
    }

    /// Now and then a cut, within the entries of the step.
    fn extent(&mut self, stoppable: bool, step: impl Fn(&Network) -> Step) -> Extent {
        if !stoppable || !self.dice.chance(4 * self.habits.cuts) {
            return Extent::Whole;
        }
        match entries(self.n, step(self).sent).len() {
            0 => Extent::Whole,
            length => Extent::Cut(self.dice.below(length + 1)),
        }
    }

    /// The links on which something waits.
    fn waiting(&self) -> Vec<(NodeId, NodeId)> {
        let links = (1..=self.n).flat_map(|from| (1..=self.n).map(move |to| (from, to)));
        links.filter(|&(from, to)| !self.links[from][to].is_empty()).collect()
    }

    /// One of these links, as the weather has it. The victim is spared, if that can be helped, what would end its
    /// operation by a round.
    fn pick(&mut self, waiting: &[(NodeId, NodeId)]) -> Option<(NodeId, NodeId)> {
        let weights: Vec<usize> = waiting.iter().map(|&(from, to)| self.weather.weight(from, to)).collect();
        let mut picked = None;
        for _ in 0..60 {
            let place = self.dice.place(&weights);
            // Only starved links have messages: then any of them.
            let place = place.or_else(|| (!waiting.is_empty()).then(|| self.dice.below(waiting.len())));
            picked = place.map(|place| waiting[place]);
            match picked {
                Some((from, to)) if self.habits.victim == Some(to) && self.ends_by_a_round(from, to, 1) => (),
                _ => break,
            }
        }
        picked
    }

    fn ends_by_a_round(&self, from: NodeId, to: NodeId, count: usize) -> bool {
        let ending = self.delivered(from, to, count).1.ending;
        matches!(ending, Some(Ending::Done(Rule::Round(_), _) | Ending::Scan(Rule::Round(_), _)))
    }
}
