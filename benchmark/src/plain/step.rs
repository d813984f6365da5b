//! One step of a node on its record or a copy of it: it handles a message or a begin, then moves the open operation on.
use super::bytes::{LIMIT, VIEW};
use super::message::Message;
use super::record::{Kind, Operation, Record, Wait, ATMAX, ATROUND, KEPTVIEW, LAST, SIZE};
use std::borrow::BorrowMut;

/// How an operation came by its view: by a round of its own, or by a good message kept.
#[derive(Clone, Copy, PartialEq, Debug)]
pub enum Rule {
    Direct(u64),
    Borrowed,
}

/// What a step tells the client.
#[derive(Clone, Copy, PartialEq, Debug)]
pub enum Ending {
    None,
    Done(Rule),
    Scan(Rule),
    Spent,
}

/// A step: the record after it, what is sent, and the ending. `view` is that of a good message sent and of an operation
/// that ended.
pub struct Step<B> {
    pub record: Record<B>,
    pub ending: Ending,
    pub view: [u8; VIEW],
    wait: Wait,
    sent: [Message; 6],
    count: usize,
}

impl<B: BorrowMut<[u8; SIZE]>> Step<B> {
    pub fn new(record: B, wait: Wait) -> Step<B> {
        Step {
            record: Record(record),
            ending: Ending::None,
            view: [0; VIEW],
            wait,
            sent: [Message::Echo { tag: 0 }; 6],
            count: 0,
        }
    }

    pub fn messages(&self) -> &[Message] {
        &self.sent[..self.count]
    }

    fn send(&mut self, m: Message) {
        self.sent[self.count] = m;
        self.count += 1;
    }

    /// The view that the step gives out: n entries of a table, and nothing past them.
    fn show(&mut self, place: usize) {
        let end = 16 * self.record.n();
        self.view[..end].copy_from_slice(&self.record.view(place)[..end]);
    }

    /// The begin of an operation at an idle node. It waits for answers, so there is nothing to move on.
    pub fn begin(&mut self, operation: Operation) {
        self.wait = Wait::Reading { operation, answered: 0, largest: 0 };
        let request = self.record.request() + 1;
        self.record.set_request(request);
        self.send(Message::Read { request });
        self.record.set_wait(&self.wait);
    }

    /// A message from a node; `view` is that of a good one.
    pub fn message(&mut self, from: usize, m: Message, view: &[u8]) {
        self.react(from, m, view);
        self.move_on();
        self.record.set_wait(&self.wait);
    }

    fn react(&mut self, from: usize, m: Message, view: &[u8]) {
        let bit = 1 << (from - 1);
        match m {
            Message::Read { request } => {
                let tag = self.record.maxtag();
                self.send(Message::ReadAnswer { request, tag });
            }
            Message::ReadAnswer { request, tag } => {
                if let Wait::Reading { answered, largest, .. } = &mut self.wait {
                    if request == self.record.request() && *answered & bit == 0 {
                        *answered |= bit;
                        *largest = tag.max(*largest);
                    }
                }
            }
            Message::Write { request, tag } => {
                if self.record.raise(tag) {
                    self.send(Message::Echo { tag });
                }
                self.send(Message::WriteAnswer { request, tag });
            }
            Message::WriteAnswer { request, tag } => {
                if let Wait::Writing { tag: written, answered, .. } = &mut self.wait {
                    if request == self.record.request() && tag == *written {
                        *answered |= bit;
                    }
                }
            }
            Message::Echo { tag } => {
                if self.record.raise(tag) {
                    self.send(Message::Echo { tag });
                }
            }
            Message::Value { tag, writer, report } => {
                let w = writer as usize;
                self.record.set_heard(from, w, tag);
                if self.record.tag(LAST, w) < tag {
                    self.record.put_entry(LAST, w, tag, report);
                    if tag <= self.record.maxtag() {
                        self.record.put_entry(ATMAX, w, tag, report);
                    }
                    if self.wait.round_tag().is_some_and(|held| tag <= held) {
                        self.record.put_entry(ATROUND, w, tag, report);
                    }
                    self.send(m);
                }
            }
            Message::Good { tag } => self.record.keep(tag, view),
        }
    }

    /// The open operation moves on until it must wait.
    fn move_on(&mut self) {
        let quorum = self.record.n() - self.record.f();
        if let Wait::Reading { operation, answered, largest } = self.wait {
            if answered.count_ones() as usize >= quorum {
                self.after_read(operation, largest.max(self.record.maxtag()));
            }
        }
        if let Wait::Writing { kind, round, tag, answered } = self.wait {
            if answered.count_ones() as usize >= quorum {
                self.wait = Wait::Comparing { kind, round, tag };
            }
        }
        if let Wait::Comparing { kind, round, tag } = self.wait {
            if self.record.agreeing() >= quorum {
                if self.record.maxtag() <= tag {
                    self.after_good(kind, round, tag);
                } else {
                    self.after_failed(kind, round, tag);
                }
            }
        }
        if let Wait::Borrowing { kind, tag } = self.wait {
            if tag <= self.record.kept() {
                self.show(KEPTVIEW);
                self.end(kind, Rule::Borrowed);
            }
        }
    }

    fn after_read(&mut self, operation: Operation, tag: u64) {
        match operation {
            Operation::Update(_) if tag == LIMIT => {
                self.close(Wait::Idle);
                self.ending = Ending::Spent;
            }
            Operation::Update(report) => {
                let writer = self.record.own() as u8;
                self.send(Message::Value { tag: tag + 1, writer, report });
                self.open_round(Kind::Update, 0, tag);
            }
            Operation::Scan => self.open_round(Kind::Scan, 1, tag),
        }
    }

    fn after_good(&mut self, kind: Kind, round: u64, tag: u64) {
        self.show(ATROUND);
        self.send(Message::Good { tag });
        if round == 0 {
            self.open_round(kind, 1, (tag + 1).max(self.record.maxtag()));
        } else {
            self.end(kind, Rule::Direct(round));
        }
    }

    fn after_failed(&mut self, kind: Kind, round: u64, tag: u64) {
        match round {
            0 => self.open_round(kind, 1, (tag + 1).max(self.record.maxtag())),
            1 | 2 => self.open_round(kind, round + 1, self.record.maxtag()),
            _ => self.close(Wait::Borrowing { kind, tag }),
        }
    }

    /// A round opens: its write goes out with the next request number, and the newest reports are held for it.
    fn open_round(&mut self, kind: Kind, round: u64, tag: u64) {
        let request = self.record.request() + 1;
        self.record.set_request(request);
        self.record.hold(tag);
        self.wait = Wait::Writing { kind, round, tag, answered: 0 };
        self.send(Message::Write { request, tag });
    }

    fn close(&mut self, wait: Wait) {
        self.record.release();
        self.wait = wait;
    }

    fn end(&mut self, kind: Kind, rule: Rule) {
        self.close(Wait::Idle);
        self.ending = match kind {
            Kind::Update => Ending::Done(rule),
            Kind::Scan => Ending::Scan(rule),
        };
    }
}
