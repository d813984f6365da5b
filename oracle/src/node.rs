//! One node of Algorithm 1 with document 01's five amendments, over sets that never forget.
//!
//! "Line" is a line of Algorithm 1. A step handles one begin or one message and then moves the open operation on until
//! it must wait.

use crate::message::{Message, NodeId, Report, Tag, Value, View, LIMIT};
use std::collections::{BTreeMap, BTreeSet};

/// What a client asks for. Document 01 calls a scan a look.
#[derive(Clone, Copy, Debug, PartialEq, Eq)]
pub enum Operation {
    Update(Report),
    Scan,
}

/// What the open operation waits for. Round 0 is an update's first lattice operation, rounds 1 to 3 are the renewal's.
#[derive(Clone, Debug)]
enum Wait {
    /// Line 36: a quorum of read answers; the answers so far.
    Reading(BTreeMap<NodeId, Tag>),
    /// Line 39: a quorum of write answers; who has answered.
    Writing { round: u8, tag: Tag, answered: BTreeSet<NodeId> },
    /// Line 15: a quorum of nodes whose values up to the tag are this node's.
    Comparing { round: u8, tag: Tag },
    /// Line 29: a good message with at least this tag.
    Borrowing { tag: Tag },
}

/// How an operation came by its view.
#[derive(Clone, Copy, Debug, PartialEq, Eq)]
pub enum Rule {
    Round(u8),
    Borrowed,
}

/// How an operation ends.
#[derive(Clone, Debug, PartialEq, Eq)]
pub enum Ending {
    /// An update has a view too (line 9), which the client is not given.
    Done(Rule, View),
    Scan(Rule, View),
    /// Amendment 5: the update found no tag left.
    Spent,
}

/// Who gets a message.
#[derive(Clone, Copy, Debug, PartialEq, Eq)]
pub enum To {
    All,
    One(NodeId),
}

/// What a step produces: messages in order, and perhaps the ending of the open operation.
#[derive(Debug, Default, PartialEq, Eq)]
pub struct Step {
    pub sent: Vec<(To, Message)>,
    pub ending: Option<Ending>,
}

impl Step {
    /// All that the messages of a frame gave, in turn. At most one of them ends an operation, since none begins one.
    pub fn joined(steps: &[Step]) -> Step {
        let mut endings = steps.iter().filter_map(|step| step.ending.clone());
        let ending = endings.next();
        assert_eq!(endings.next(), None, "an operation ends once");
        Step { sent: steps.iter().flat_map(|step| step.sent.clone()).collect(), ending }
    }

    pub(crate) fn send(&mut self, to: To, message: Message) {
        self.sent.push((to, message));
    }
}

#[derive(Clone, Debug)]
pub struct Node {
    id: NodeId,
    n: usize,
    /// n − f, where f is how many nodes may stop.
    quorum: usize,
    /// V: the values received from each node; the own set has all values received from anybody. Index 0 is unused.
    values: Vec<BTreeSet<Value>>,
    /// Document 01's top stamp.
    max_tag: Tag,
    /// Every good message received, in order.
    goods: Vec<(Tag, View)>,
    /// The last request number used.
    request: u64,
    open: Option<(Operation, Wait)>,
}

impl Node {
    /// Lines 1 to 3.
    pub fn fresh(n: usize, f: usize, id: NodeId) -> Node {
        let (quorum, values) = (n - f, vec![BTreeSet::new(); n + 1]);
        Node { id, n, quorum, values, max_tag: 0, goods: vec![], request: 0, open: None }
    }

    /// A node without a report that has come to this max_tag and has used these request numbers.
    pub fn old(n: usize, f: usize, id: NodeId, max_tag: Tag, request: u64) -> Node {
        Node { max_tag, request, ..Node::fresh(n, f, id) }
    }

    pub fn is_idle(&self) -> bool {
        self.open.is_none()
    }

    pub fn requests_left(&self) -> u64 {
        LIMIT - self.request
    }

    /// Lines 4, 11 and 35: an operation starts with a read.
    pub fn begin(&mut self, operation: Operation) -> Step {
        let mut step = Step::default();
        step.send(To::All, Message::Read { request: self.next_request() });
        self.open = Some((operation, Wait::Reading(BTreeMap::new())));
        self.move_on(&mut step);
        step
    }

    /// A message from a node, the own one included.
    pub fn receive(&mut self, from: NodeId, message: Message) -> Step {
        let mut step = Step::default();
        match message {
            // Line 48.
            Message::Read { request } => {
                step.send(To::One(from), Message::ReadAnswer { request, tag: self.max_tag });
            }
            // Lines 43 to 46.
            Message::Write { request, tag } => {
                self.raise(tag, &mut step);
                step.send(To::One(from), Message::WriteAnswer { request, tag });
            }
            // Line 47.
            Message::Echo { tag } => self.raise(tag, &mut step),
            // Lines 40 to 42: a value that is new goes on to all. It never changes max_tag.
            Message::Value(value) => {
                let new = self.values[self.id].insert(value);
                self.values[from].insert(value);
                if new {
                    step.send(To::All, Message::Value(value));
                }
            }
            // Line 49, amendment 4: the message carries its view.
            Message::Good { tag, view } => self.goods.push((tag, view)),
            Message::ReadAnswer { request, tag } => self.count_read_answer(from, request, tag),
            Message::WriteAnswer { request, tag } => self.count_write_answer(from, request, tag),
        }
        self.move_on(&mut step);
        step
    }

    fn next_request(&mut self) -> u64 {
        self.request += 1;
        self.request
    }

    /// Amendment 1: whenever max_tag grows, through a write or an echo, it is echoed to all.
    fn raise(&mut self, tag: Tag, step: &mut Step) {
        if tag > self.max_tag {
            self.max_tag = tag;
            step.send(To::All, Message::Echo { tag });
        }
    }

    /// Amendment 2: an answer counts if it is of the awaited kind and has the current number, and of each sender only
    /// the first.
    fn count_read_answer(&mut self, from: NodeId, request: u64, tag: Tag) {
        if let Some((_, Wait::Reading(answers))) = &mut self.open {
            if request == self.request {
                answers.entry(from).or_insert(tag);
            }
        }
    }

    /// Amendment 2: a write answer must carry the written tag besides.
    fn count_write_answer(&mut self, from: NodeId, request: u64, tag: Tag) {
        if let Some((_, Wait::Writing { tag: written, answered, .. })) = &mut self.open {
            if request == self.request && tag == *written {
                answered.insert(from);
            }
        }
    }

    /// Moves the open operation on until it must wait or has ended. What is taken and not put back has ended.
    fn move_on(&mut self, step: &mut Step) {
        while let Some((operation, wait)) = self.open.take() {
            match wait {
                Wait::Reading(answers) if answers.len() >= self.quorum => {
                    // Line 37. Amendment 3: the own max_tag counts too.
                    let largest = answers.into_values().fold(self.max_tag, Tag::max);
                    self.after_read(operation, largest, step);
                }
                Wait::Writing { round, tag, answered } if answered.len() >= self.quorum => {
                    self.open = Some((operation, Wait::Comparing { round, tag }));
                }
                Wait::Comparing { round, tag } if self.equal_quorum(tag) => {
                    self.after_agreement(operation, round, tag, step);
                }
                Wait::Borrowing { tag } if self.lent(tag).is_some() => {
                    step.ending = self.lent(tag).map(|view| ending(operation, Rule::Borrowed, view.clone()));
                }
                wait => {
                    self.open = Some((operation, wait));
                    return;
                }
            }
        }
    }

    /// Lines 5 to 7 and 12, with the tag that was read.
    fn after_read(&mut self, operation: Operation, tag: Tag, step: &mut Step) {
        match operation {
            Operation::Scan => self.open_round(operation, 1, tag, step),
            // Amendment 5.
            Operation::Update(_) if tag == LIMIT => step.ending = Some(Ending::Spent),
            Operation::Update(report) => {
                step.send(To::All, Message::Value(Value { tag: tag + 1, writer: self.id, report }));
                self.open_round(operation, 0, tag, step);
            }
        }
    }

    /// Lines 14 and 38: a round starts with its write.
    fn open_round(&mut self, operation: Operation, round: u8, tag: Tag, step: &mut Step) {
        step.send(To::All, Message::Write { request: self.next_request(), tag });
        self.open = Some((operation, Wait::Writing { round, tag, answered: BTreeSet::new() }));
    }

    /// The values up to a tag in the set of one node.
    fn up_to(&self, node: NodeId, tag: Tag) -> impl DoubleEndedIterator<Item = &Value> {
        self.values[node].range(..=Value { tag, writer: NodeId::MAX, report: Report::MAX })
    }

    /// Line 15: a quorum of nodes has sent the very values up to the tag that this node has. It agrees with itself.
    fn equal_quorum(&self, tag: Tag) -> bool {
        // The newest values are compared first, since it is these that differ if any do.
        let agrees = |&node: &NodeId| self.up_to(node, tag).rev().eq(self.up_to(self.id, tag).rev());
        (1..=self.n).filter(agrees).count() >= self.quorum
    }

    /// Lines 16 to 21, and what follows a round (lines 7 to 9, and 24 to 28).
    fn after_agreement(&mut self, operation: Operation, round: u8, tag: Tag, step: &mut Step) {
        let good = self.max_tag <= tag;
        let view = self.extract(tag);
        if good {
            step.send(To::All, Message::Good { tag, view: view.clone() });
        }
        match round {
            0 => self.open_round(operation, 1, (tag + 1).max(self.max_tag), step),
            _ if good => step.ending = Some(ending(operation, Rule::Round(round), view)),
            3 => self.open = Some((operation, Wait::Borrowing { tag })),
            _ => self.open_round(operation, round + 1, self.max_tag, step),
        }
    }

    /// Lines 31 to 34: of each writer the newest value up to the tag.
    pub(crate) fn extract(&self, tag: Tag) -> View {
        let mut view = vec![None; self.n];
        // Ascending in tag, so the newest is stored last.
        for value in self.up_to(self.id, tag) {
            view[value.writer - 1] = Some((value.tag, value.report));
        }
        view
    }

    /// Amendment 4: of the good messages received the one with the greatest tag, the earliest of these, counts. Its
    /// view, if its tag is not below the given one.
    fn lent(&self, tag: Tag) -> Option<&View> {
        let (kept, view) = self.goods.iter().rev().max_by_key(|good| good.0)?;
        (*kept >= tag).then_some(view)
    }
}

/// Lines 10 and 13.
fn ending(operation: Operation, rule: Rule, view: View) -> Ending {
    match operation {
        Operation::Update(_) => Ending::Done(rule, view),
        Operation::Scan => Ending::Scan(rule, view),
    }
}
