//! Throws cases: each starts from a record of a run and a message or a view, or from made ones; most are damaged.

use crate::case::{compare_fresh, compare_next, compare_page, Agreed, Call, Case};
use crate::chance::report;
use crate::records::{crowded, nodes, other_f, set_wait, wild};
use crate::stored::{self, Words, CODE, IDLE, SIZE};
use crate::tally::Tally;
use crate::{frames, messages, pages, records};
use oracle::dice::Dice;
use oracle::habits::faults;
use oracle::message::Message;
use oracle::node::Operation;
use oracle::record::{LEAST_OUTPUT, NODES};
use oracle::wire;

/// How often the count is told.
const PROGRESS: usize = 100_000;

/// So many differences are told in full.
const TOLD: usize = 3;

/// All that was thrown so far, and where the two sides differed.
pub struct Trial {
    pub dice: Dice,
    /// All cases, and those of them that were thrown; the others are of runs.
    pub cases: usize,
    pub thrown: usize,
    pub tally: Tally,
    /// How many differences there are, and the first of them.
    pub different: usize,
    pub told: Vec<String>,
}

impl Trial {
    pub fn new(dice: Dice) -> Trial {
        Trial { dice, cases: 0, thrown: 0, tally: Tally::default(), different: 0, told: vec![] }
    }

    /// One more case. Of a difference its number is told besides.
    pub fn keep<T>(&mut self, result: Result<T, String>) -> Option<T> {
        self.cases += 1;
        if self.cases.is_multiple_of(PROGRESS) {
            eprintln!("{} cases", self.cases);
        }
        if let Err(difference) = &result {
            self.different += 1;
            if self.told.len() < TOLD {
                self.told.push(format!("case {}: {difference}", self.cases));
            }
        }
        result.ok()
    }

    /// A call at a node.
    pub fn call(&mut self, case: &Case) -> Option<Agreed> {
        let agreed = case.compare(&mut self.dice);
        let agreed = self.keep(agreed)?;
        self.tally.see(case, &agreed);
        Some(agreed)
    }

    /// A fresh record. Gives its bytes.
    pub fn fresh(&mut self, n: usize, f: usize, own: usize, size: usize) -> Option<Vec<u8>> {
        let made = compare_fresh(&mut self.dice, n, f, own, size);
        let (code, record) = self.keep(made)?;
        self.tally.count(format!("fresh: {code}"));
        Some(record)
    }

    /// One case that starts from a run's record and from the messages that wait for it, each with its sender.
    pub fn throw(&mut self, record: &[u8], waiting: &[(usize, Message)]) {
        self.thrown += 1;
        match self.dice.below(100) {
            0 | 1 => {
                let any = self.dice.below(NODES + 2);
                let n = self.dice.pick(&[any, any, any, NODES, NODES + 1, 256 + any, (1 << 32) + any, usize::MAX]);
                let borne = faults(&mut self.dice, n.clamp(1, NODES));
                let f = if self.dice.chance(700) { borne } else { other_f(&mut self.dice, any, borne as u64) as usize };
                let own = self.dice.pick(&[0, 1, n / 2, n, n.wrapping_add(1), usize::MAX]);
                let size = self.record_size();
                self.fresh(n, f, own, size);
            }
            2..=14 => self.throw_next(record, waiting),
            15..=18 => self.throw_page(record),
            _ => self.throw_call(record, waiting),
        }
    }

    fn throw_next(&mut self, record: &[u8], waiting: &[(usize, Message)]) {
        let words = self.base(record);
        let bytes = if self.dice.chance(500) {
            messages::several(&mut self.dice, &words)
        } else {
            let sender = 1 + self.dice.below(NODES);
            self.message(&words, sender, waiting).1
        };
        let n = nodes(&words);
        let n = if self.dice.chance(900) { n } else { self.dice.pick(&[0, 1, n + 1, NODES, NODES + 1, usize::MAX]) };
        let found = compare_next(&mut self.dice, n, &bytes);
        if let Some(code) = self.keep(found) {
            self.tally.count(format!("next: {code}"));
        }
    }

    fn throw_page(&mut self, record: &[u8]) {
        let words = self.base(record);
        let page = pages::page(&mut self.dice, &words);
        let shown = compare_page(&mut self.dice, &page);
        if let Some(code) = self.keep(shown) {
            self.tally.see_page(&page, code);
        }
    }

    fn throw_call(&mut self, record: &[u8], waiting: &[(usize, Message)]) {
        let mut words = if self.dice.chance(40) { wild(&mut self.dice) } else { self.base(record) };
        let call = match self.dice.below(10) {
            0 | 1 => self.begin(&mut words),
            2 => {
                let sender = self.sender(&words);
                Call::Frame { sender, bytes: frames::frame(&mut self.dice, &words, sender) }
            }
            _ => {
                let sender = self.sender(&words);
                let (sender, bytes) = self.message(&words, sender, waiting);
                Call::Message { sender, bytes }
            }
        };
        for _ in 0..self.dice.pick(&[0, 0, 1, 1, 1, 1, 2, 4]) {
            records::damage(&mut self.dice, &mut words);
        }
        let mut record = stored::bytes(&words);
        record.resize(self.record_size(), self.dice.number() as u8);
        let output = self.output_size(call.least_output());
        self.call(&Case { record, call, output });
    }

    /// A begin, mostly at an idle node.
    fn begin(&mut self, words: &mut Words) -> Call {
        let dice = &mut self.dice;
        if dice.chance(700) {
            words[CODE] = IDLE;
        }
        Call::Begin(if dice.chance(500) { Operation::Scan } else { Operation::Update(report(dice)) })
    }

    /// A sender, mostly one of the nodes.
    fn sender(&mut self, words: &Words) -> usize {
        let (n, dice) = (nodes(words), &mut self.dice);
        let any = [0, n + 1, NODES, NODES + 1, 256 + 1, (1 << 32) + 1, usize::MAX];
        if dice.chance(950) {
            1 + dice.below(n)
        } else {
            dice.pick(&any)
        }
    }

    /// Where a case starts: the record of the run, as it is or in another wait, or a crowded one.
    fn base(&mut self, record: &[u8]) -> Words {
        let dice = &mut self.dice;
        if dice.chance(350) {
            return crowded(dice);
        }
        let mut words = stored::words(record).expect("a run keeps whole records");
        if dice.chance(500) {
            set_wait(dice, &mut words);
        }
        words
    }

    /// A message that waits in the run, with its sender, or one that fits the record; damaged or not.
    fn message(&mut self, words: &Words, sender: usize, waiting: &[(usize, Message)]) -> (usize, Vec<u8>) {
        let dice = &mut self.dice;
        let (sender, message) = if !waiting.is_empty() && dice.chance(300) {
            dice.pick(waiting)
        } else {
            (sender, messages::fitting(dice, words, sender))
        };
        let mut bytes = wire::write(&message);
        if dice.chance(150) {
            messages::damage(dice, &mut bytes);
        }
        (sender, bytes)
    }

    /// The bytes lent for a record: mostly those that it has.
    fn record_size(&mut self) -> usize {
        let any = self.dice.below(2 * SIZE);
        match self.dice.below(50) {
            0 => self.dice.pick(&[0, 1, SIZE - 8, SIZE - 1, SIZE + 1, SIZE + 8, 2 * SIZE, any]),
            _ => SIZE,
        }
    }

    /// The bytes lent for an output that has so many at least: mostly enough.
    fn output_size(&mut self, least: usize) -> usize {
        let any = self.dice.below(2 * LEAST_OUTPUT);
        match self.dice.below(20) {
            0 => self.dice.pick(&[0, 1, least - 1, least - 1, any]),
            1..=4 => self.dice.pick(&[least + 1, least + any, least + 2 * any]),
            _ => least,
        }
    }
}
