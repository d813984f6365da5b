//! One node's bounded record, as document 01 words it under "What a cabinet remembers", with its calls and its step. It
//! is made of values that suit Rust and knows of no layout. A record may hold anything; `usable` tells which can be
//! used, and `frame` has the call for several messages at once.
mod frame;
mod usable;

use crate::cluster::{can_bear, demand, Refusal, NO_SUCH_NODE, OPERATION_OPEN, REQUESTS, REQUESTS_USED_UP};
use crate::message::{Message, NodeId, Report, Tag, Value, View, LIMIT};
use crate::node::{Ending, Operation, Rule, Step, To};
use crate::wire;
pub use frame::{BAD_FRAME, LEAST_FRAME_OUTPUT, LONGEST_FRAME};
use std::collections::{BTreeMap, BTreeSet};
pub use usable::Fault;

pub const BAD_NUMBER: Refusal = Refusal(1);
pub const UNUSABLE: Refusal = Refusal(2);
pub const NOT_OF_THE_LAYOUT: Refusal = Refusal(7);
pub const CANNOT_COME_NOW: Refusal = Refusal(9);
pub const BAD_LENGTH: Refusal = Refusal(12);

/// The most nodes. Tables have a place for each of so many, whatever n is.
pub const NODES: usize = 16;

/// The shortest output buffer that a begin or a message takes.
pub const LEAST_OUTPUT: usize = 512;

/// At most one report for each writer, with its tag. A writer without one is not in it; an entry with tag 0 has bytes
/// beside it and makes the record unusable.
pub type Held = BTreeMap<NodeId, (Tag, Report)>;

/// What the open operation waits for, with its own numbers; an update's report only while it is still to be sent.
#[derive(Clone, Debug, PartialEq, Eq)]
pub enum Wait {
    Reading { operation: Operation, answered: BTreeSet<NodeId>, largest: Tag },
    Writing { kind: Kind, round: u64, tag: Tag, answered: BTreeSet<NodeId> },
    Comparing { kind: Kind, round: u64, tag: Tag },
    Borrowing { kind: Kind, tag: Tag },
}

#[derive(Clone, Copy, Debug, PartialEq, Eq, PartialOrd, Ord)]
pub enum Kind {
    Update,
    Scan,
}

#[derive(Clone, Debug, PartialEq, Eq)]
pub struct Record {
    pub n: usize,
    /// How many nodes may stop.
    pub f: usize,
    pub own: NodeId,
    /// Document 01's top stamp.
    pub max_tag: Tag,
    /// The last request number used.
    pub request: u64,
    /// The tag of the kept good message.
    pub kept: Tag,
    pub wait: Option<Wait>,
    /// By sender and writer the last tag heard; 0 where there is none.
    pub heard: BTreeMap<(NodeId, NodeId), Tag>,
    pub last: Held,
    /// The newest not above `max_tag`.
    pub at_max: Held,
    /// While a round is open, the newest not above its tag.
    pub at_round: Held,
    pub kept_view: Held,
}

impl Record {
    pub fn fresh(n: usize, f: usize, own: NodeId) -> Result<Record, Refusal> {
        demand((1..=NODES).contains(&n) && can_bear(n, f) && (1..=n).contains(&own), BAD_NUMBER)?;
        Ok(Record {
            n,
            f,
            own,
            max_tag: 0,
            request: 0,
            kept: 0,
            wait: None,
            heard: BTreeMap::new(),
            last: Held::new(),
            at_max: Held::new(),
            at_round: Held::new(),
            kept_view: Held::new(),
        })
    }

    /// The open round and its tag.
    pub fn round(&self) -> Option<(u64, Tag)> {
        match self.wait {
            Some(Wait::Writing { round, tag, .. } | Wait::Comparing { round, tag, .. }) => Some((round, tag)),
            _ => None,
        }
    }

    /// Begins an operation, with an output buffer of this many bytes. A refused begin changes nothing.
    pub fn begin(&mut self, operation: Operation, output: usize) -> Result<Step, Refusal> {
        demand(output >= LEAST_OUTPUT, BAD_LENGTH)?;
        self.judge()?;
        demand(self.wait.is_none(), OPERATION_OPEN)?;
        demand(LIMIT - self.request >= REQUESTS, REQUESTS_USED_UP)?;
        let mut step = Step::default();
        step.send(To::All, Message::Read { request: self.next_request() });
        self.wait = Some(Wait::Reading { operation, answered: BTreeSet::new(), largest: 0 });
        Ok(step)
    }

    /// Handles a message, with an output buffer of this many bytes. A refused message changes nothing.
    pub fn message(&mut self, sender: NodeId, bytes: &[u8], output: usize) -> Result<Step, Refusal> {
        demand(output >= LEAST_OUTPUT, BAD_LENGTH)?;
        self.judge()?;
        demand((1..=self.n).contains(&sender), NO_SUCH_NODE)?;
        let message = wire::read(self.n, bytes).ok_or(NOT_OF_THE_LAYOUT)?;
        if let Message::Value(value) = &message {
            demand(self.can_come(sender, value), CANNOT_COME_NOW)?;
        }
        let mut step = Step::default();
        self.handle(sender, message, &mut step);
        self.move_on(&mut step);
        Ok(step)
    }

    fn next_request(&mut self) -> u64 {
        self.request += 1;
        self.request
    }

    fn heard(&self, sender: NodeId, writer: NodeId) -> Tag {
        self.heard.get(&(sender, writer)).copied().unwrap_or(0)
    }

    /// Refusal 9 is for all other values: one below what was heard, or one that would push out a report that is still
    /// above `max_tag`.
    fn can_come(&self, sender: NodeId, value: &Value) -> bool {
        let last = tag_of(&self.last, value.writer);
        value.tag >= self.heard(sender, value.writer) && (value.tag <= last || last <= self.max_tag)
    }

    fn handle(&mut self, sender: NodeId, message: Message, step: &mut Step) {
        match message {
            Message::Read { request } => {
                step.send(To::One(sender), Message::ReadAnswer { request, tag: self.max_tag });
            }
            Message::Write { request, tag } => {
                self.raise(tag, step);
                step.send(To::One(sender), Message::WriteAnswer { request, tag });
            }
            Message::Echo { tag } => self.raise(tag, step),
            Message::Value(value) => self.take(sender, value, step),
            Message::Good { tag, view } if tag > self.kept => {
                self.kept = tag;
                self.kept_view = (1..).zip(view).filter_map(|(writer, shown)| Some((writer, shown?))).collect();
            }
            Message::Good { .. } => (),
            Message::ReadAnswer { request, tag } => match &mut self.wait {
                Some(Wait::Reading { answered, largest, .. })
                    if request == self.request && !answered.contains(&sender) =>
                {
                    answered.insert(sender);
                    *largest = tag.max(*largest);
                }
                _ => (),
            },
            Message::WriteAnswer { request, tag } => match &mut self.wait {
                Some(Wait::Writing { tag: written, answered, .. }) if (request, tag) == (self.request, *written) => {
                    answered.insert(sender);
                }
                _ => (),
            },
        }
    }

    /// Amendment 1. What is last and not above the new tag is now the newest not above it.
    fn raise(&mut self, tag: Tag, step: &mut Step) {
        if tag > self.max_tag {
            self.max_tag = tag;
            self.at_max = self.newest_up_to(tag);
            step.send(To::All, Message::Echo { tag });
        }
    }

    /// Of each writer the newest report not above a tag that is at least `max_tag`. At most one report of a writer is
    /// above `max_tag` (refusal 9), and that is its last: so it is the last, or else what is held for `max_tag`.
    fn newest_up_to(&self, tag: Tag) -> Held {
        let newest = |writer: &NodeId| match self.last.get(writer) {
            Some(last) if last.0 > tag => self.at_max.get(writer),
            last => last,
        };
        (1..=NODES).filter_map(|writer| Some((writer, *newest(&writer)?))).collect()
    }

    /// A value that is new becomes the last of its writer and goes on to all.
    fn take(&mut self, sender: NodeId, value: Value, step: &mut Step) {
        let Value { tag, writer, report } = value;
        self.heard.insert((sender, writer), tag);
        if tag <= tag_of(&self.last, writer) {
            return;
        }
        self.last.insert(writer, (tag, report));
        if tag <= self.max_tag {
            self.at_max.insert(writer, (tag, report));
        }
        if self.round().is_some_and(|round| tag <= round.1) {
            self.at_round.insert(writer, (tag, report));
        }
        step.send(To::All, Message::Value(value));
    }

    fn quorum(&self) -> usize {
        self.n - self.f
    }

    /// Moves the open operation on until it must wait or has ended. What is taken and not put back has ended.
    fn move_on(&mut self, step: &mut Step) {
        while let Some(wait) = self.wait.take() {
            match wait {
                Wait::Reading { operation, answered, largest } if answered.len() >= self.quorum() => {
                    self.after_read(operation, largest.max(self.max_tag), step);
                }
                Wait::Writing { kind, round, tag, answered } if answered.len() >= self.quorum() => {
                    self.wait = Some(Wait::Comparing { kind, round, tag });
                }
                Wait::Comparing { kind, round, tag } if self.quorum_agrees() => {
                    self.after_round(kind, round, tag, step);
                }
                Wait::Borrowing { kind, tag } if self.kept >= tag => {
                    self.end(ended(kind, Rule::Borrowed, self.shown(&self.kept_view)), step);
                }
                wait => {
                    self.wait = Some(wait);
                    return;
                }
            }
        }
    }

    fn after_read(&mut self, operation: Operation, tag: Tag, step: &mut Step) {
        match operation {
            Operation::Scan => self.open_round(Kind::Scan, 1, tag, step),
            Operation::Update(_) if tag == LIMIT => self.end(Ending::Spent, step),
            Operation::Update(report) => {
                step.send(To::All, Message::Value(Value { tag: tag + 1, writer: self.own, report }));
                self.open_round(Kind::Update, 0, tag, step);
            }
        }
    }

    /// The tag of a round that opens is at least `max_tag`.
    fn open_round(&mut self, kind: Kind, round: u64, tag: Tag, step: &mut Step) {
        step.send(To::All, Message::Write { request: self.next_request(), tag });
        self.at_round = self.newest_up_to(tag);
        self.wait = Some(Wait::Writing { kind, round, tag, answered: BTreeSet::new() });
    }

    /// "A cabinet agrees when, for each writer, it has sent the report held for r or a later one; the own cabinet
    /// always agrees."
    fn quorum_agrees(&self) -> bool {
        let has_sent = |node, writer| self.heard(node, writer) >= tag_of(&self.at_round, writer);
        let agrees = |&node: &NodeId| node == self.own || (1..=self.n).all(|writer| has_sent(node, writer));
        (1..=self.n).filter(agrees).count() >= self.quorum()
    }

    /// A quorum agrees: the round closes, and nothing is held for it any more.
    fn after_round(&mut self, kind: Kind, round: u64, tag: Tag, step: &mut Step) {
        let view = self.shown(&self.at_round);
        self.at_round.clear();
        let good = self.max_tag <= tag;
        if good {
            step.send(To::All, Message::Good { tag, view: view.clone() });
        }
        match round {
            0 => self.open_round(kind, 1, self.max_tag.max(tag + 1), step),
            _ if good => self.end(ended(kind, Rule::Round(round as u8), view), step),
            3 => self.wait = Some(Wait::Borrowing { kind, tag }),
            _ => self.open_round(kind, round + 1, self.max_tag, step),
        }
    }

    /// The operation has ended, and nothing is held for a round any more. In a run nothing is held in a wait without a
    /// round; of a record that holds something there all the same document 01 does not say what becomes of it.
    fn end(&mut self, ending: Ending, step: &mut Step) {
        self.at_round.clear();
        step.ending = Some(ending);
    }

    /// What is given out of reports held: the first n places.
    pub fn shown(&self, held: &Held) -> View {
        (1..=self.n).map(|writer| held.get(&writer).copied()).collect()
    }
}

fn tag_of(held: &Held, writer: NodeId) -> Tag {
    held.get(&writer).map_or(0, |report| report.0)
}

fn ended(kind: Kind, rule: Rule, view: View) -> Ending {
    match kind {
        Kind::Update => Ending::Done(rule, view),
        Kind::Scan => Ending::Scan(rule, view),
    }
}
