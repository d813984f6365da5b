//! Random sessions. The generator plays its own cluster along, so that most of its events are possible ones; the rest
//! are refusals on purpose.

use crate::cluster::{Cluster, Event, Extent, Outcome, CHANNEL_FULL};
use crate::dice::Dice;
use crate::habits::{faults, Habits, Weather};
use crate::message::{Message, NodeId, Report};
use crate::node::{Ending, Operation, Rule};
use crate::oddities::{bad_line, first_line, zeros_before_numbers};
use crate::text;

/// The text of a random session with this many lines after the first.
pub fn session(seed: u64, events: usize, n: Option<usize>) -> Vec<u8> {
    let mut dice = Dice::new(seed);
    let n = n.unwrap_or_else(|| dice.pick(&[1, 2, 3, 3, 3, 3, 4, 4, 5, 5, 5, 5]));
    let f = faults(&mut dice, n);
    let mut text = first_line(&mut dice, n, f);
    let mut maker = Maker::new(dice, n, f);
    for _ in 0..events {
        text.extend(maker.line());
        text.push(b'\n');
    }
    if events > 0 && maker.dice.chance(30) {
        text.pop();
    }
    text
}

struct Maker {
    dice: Dice,
    habits: Habits,
    weather: Weather,
    cluster: Cluster,
    /// The last event found a channel full.
    jammed: bool,
    /// No operation begins until nothing waits: then none may be open.
    calm: bool,
}

impl Maker {
    fn new(mut dice: Dice, n: usize, f: usize) -> Maker {
        let habits = Habits::draw(&mut dice, n);
        let weather = Weather::draw(&mut dice, n);
        let cluster = Cluster::fresh(n, f).expect("a session has at most five nodes, and their f can be borne");
        Maker { dice, habits, weather, cluster, jammed: false, calm: false }
    }

    /// The next line of the session, without its line feed.
    fn line(&mut self) -> Vec<u8> {
        if self.dice.chance(self.habits.bad_lines) {
            return bad_line(&mut self.dice);
        }
        if self.dice.chance(self.habits.changes) {
            self.weather = Weather::draw(&mut self.dice, self.cluster.n());
            self.calm = self.dice.chance(if self.habits.victim.is_some() { 100 } else { 400 });
        }
        let event = self.event();
        self.jammed = self.cluster.event(&event).err() == Some(CHANNEL_FULL);
        let line = text::line(&event);
        if self.dice.chance(5) {
            return zeros_before_numbers(&line).into_bytes();
        }
        line.into_bytes()
    }

    fn event(&mut self) -> Event {
        if self.dice.chance(self.habits.misplaced) {
            return self.misplaced();
        }
        if self.dice.chance(self.habits.stops) {
            return Event::Stop { node: self.node() };
        }
        if self.dice.chance(self.habits.cuts) {
            return self.cut();
        }
        if self.jammed && self.dice.chance(800) {
            if let Some(event) = self.way_out() {
                return event;
            }
        }
        let idle = self.idle();
        if !idle.is_empty() && !self.calm && self.dice.chance(self.habits.begins) {
            let node = self.dice.pick(&idle);
            return self.begin(node, Extent::Whole);
        }
        match self.waiting_channel() {
            Some((from, to)) => Event::Deliver { from, to, extent: Extent::Whole },
            None if !idle.is_empty() => {
                self.calm = false;
                let node = self.dice.pick(&idle);
                self.begin(node, Extent::Whole)
            }
            None => self.misplaced(),
        }
    }

    fn node(&mut self) -> NodeId {
        1 + self.dice.below(self.cluster.n())
    }

    /// The nodes that stand and have no operation open.
    fn idle(&self) -> Vec<NodeId> {
        (1..=self.cluster.n()).filter(|&node| self.cluster.stands(node) && self.cluster.is_idle(node)).collect()
    }

    fn begin(&mut self, node: NodeId, extent: Extent) -> Event {
        let operation =
            if self.dice.chance(self.habits.updates) { Operation::Update(self.report()) } else { Operation::Scan };
        Event::Begin { node, operation, extent }
    }

    /// Mostly any report, now and then the zero one, which is not the same as none, or one of a few that come again.
    fn report(&mut self) -> Report {
        match self.dice.below(10) {
            0 => 0,
            1 => self.dice.below(3) as Report,
            _ => self.dice.number(),
        }
    }

    /// A channel on which something waits, as the weather has it.
    fn waiting_channel(&mut self) -> Option<(NodeId, NodeId)> {
        let waiting = self.waiting();
        let mut weights = vec![];
        for &(from, to) in &waiting {
            let spared = self.habits.victim == Some(to) && self.would_end_by_a_round(from, to);
            weights.push(if spared { 0 } else { self.weather.weight(from, to) });
        }
        if let Some(place) = self.dice.place(&weights) {
            return Some(waiting[place]);
        }
        // Only starved channels have messages. Let them starve while there is something else to do, not for ever.
        let busy = !self.calm && !self.idle().is_empty();
        let starve = waiting.is_empty() || (busy && self.dice.chance(700));
        (!starve).then(|| self.dice.pick(&waiting))
    }

    /// The channels on which something waits.
    fn waiting(&self) -> Vec<(NodeId, NodeId)> {
        let nodes = 1..=self.cluster.n();
        let channels = nodes.clone().flat_map(|from| nodes.clone().map(move |to| (from, to)));
        channels.filter(|&(from, to)| !self.cluster.channel(from, to).is_empty()).collect()
    }

    /// What a whole delivery would give, tried on a copy.
    fn trial(&self, from: NodeId, to: NodeId) -> Outcome {
        self.cluster.clone().event(&Event::Deliver { from, to, extent: Extent::Whole })
    }

    fn would_end_by_a_round(&self, from: NodeId, to: NodeId) -> bool {
        let ending = self.trial(from, to).ok().and_then(|accepted| accepted.ending);
        matches!(ending, Some(Ending::Done(Rule::Round(_), _) | Ending::Scan(Rule::Round(_), _)))
    }

    /// After a channel was full: a delivery that still has room. Where there is none, nodes may lock each other for
    /// ever; a stop can free them.
    fn way_out(&mut self) -> Option<Event> {
        let open: Vec<_> = self.waiting().into_iter().filter(|&(from, to)| self.trial(from, to).is_ok()).collect();
        if !open.is_empty() {
            let (from, to) = self.dice.pick(&open);
            return Some(Event::Deliver { from, to, extent: Extent::Whole });
        }
        self.dice.chance(200).then(|| Event::Stop { node: self.node() })
    }

    /// A cut event, by preference a delivery that lets a value out, and then inside the value's way to all.
    fn cut(&mut self) -> Event {
        let n = self.cluster.n();
        let (idle, waiting) = (self.idle(), self.waiting());
        if waiting.is_empty() || (!idle.is_empty() && self.dice.chance(150)) {
            let node = if idle.is_empty() { self.node() } else { self.dice.pick(&idle) };
            let m = self.dice.below(n + 2);
            return self.begin(node, Extent::Cut(m));
        }
        let is_value = |entry: &(NodeId, Message)| matches!(entry.1, Message::Value(_));
        let list = |from, to| self.trial(from, to).unwrap_or_default().let_out;
        let trials: Vec<_> = waiting.iter().map(|&(from, to)| (from, to, list(from, to))).collect();
        let values: Vec<_> = trials.iter().filter(|trial| trial.2.iter().any(is_value)).cloned().collect();
        let inside = n > 1 && !values.is_empty() && self.dice.chance(500);
        let (from, to, list) = self.dice.pick(if values.is_empty() { &trials } else { &values });
        let m = match list.iter().position(is_value) {
            Some(first) if inside => first + 1 + self.dice.below(n - 1),
            _ if self.dice.chance(100) => 9999,
            _ => self.dice.below(list.len() + 2),
        };
        Event::Deliver { from, to, extent: Extent::Cut(m) }
    }

    /// An event with any numbers at all.
    fn misplaced(&mut self) -> Event {
        let n = self.cluster.n();
        let numbers: Vec<NodeId> = (1..=n).chain(1..=n).chain(1..=n).chain([0, n + 1, 9999]).collect();
        let node = self.dice.pick(&numbers);
        let extent = if self.dice.chance(50) { Extent::Cut(self.dice.below(12)) } else { Extent::Whole };
        match self.dice.below(8) {
            0..=2 => self.begin(node, extent),
            3 => Event::Stop { node: self.dice.pick(&[0, n + 1, node.min(n + 1)]) },
            _ => Event::Deliver { from: self.dice.pick(&numbers), to: node, extent },
        }
    }
}
