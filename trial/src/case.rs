//! One call with all that is lent to it, made on both sides: by the proved code, and by the oracle.

use crate::chance::noise;
use crate::pages::Page;
use crate::stored;
use oracle::cluster::Refusal;
use oracle::dice::Dice;
use oracle::node::{Ending, Operation, Rule, Step, To};
use oracle::page;
use oracle::record::{
    Fault, Record, BAD_LENGTH, BAD_NUMBER, LEAST_FRAME_OUTPUT, LEAST_OUTPUT, NODES, NOT_OF_THE_LAYOUT, UNUSABLE,
};
use oracle::wire;
use snapshot::{lent, VIEW};
use std::fmt::Write;

/// A begin, a message or a frame at a node.
#[derive(Clone, Debug)]
pub enum Call {
    Begin(Operation),
    Message { sender: usize, bytes: Vec<u8> },
    Frame { sender: usize, bytes: Vec<u8> },
}

impl Call {
    /// The shortest output buffer that it takes.
    pub fn least_output(&self) -> usize {
        match self {
            Call::Begin(_) | Call::Message { .. } => LEAST_OUTPUT,
            Call::Frame { .. } => LEAST_FRAME_OUTPUT,
        }
    }
}

/// A call on a record, with so many bytes for its output.
pub struct Case {
    pub record: Vec<u8>,
    pub call: Call,
    pub output: usize,
}

/// The code of a call, and what it left of everything lent.
#[derive(Clone, PartialEq, Eq)]
struct Left {
    code: u8,
    record: Vec<u8>,
    out: Vec<u8>,
    length: usize,
    view: [u8; VIEW],
}

/// What both sides gave.
pub struct Agreed {
    pub code: u8,
    pub record: Vec<u8>,
    /// The bytes of output.
    pub length: usize,
    /// The oracle's steps, one for each message, where the call was not refused; a begin is one too.
    pub steps: Option<Vec<Step>>,
    /// The record before, where its bytes are one, and the clauses by which it is unusable.
    pub before: Option<(Record, Vec<Fault>)>,
}

impl Case {
    /// Makes the call on both sides, with anything in what is lent to be written, and compares all that is left.
    pub fn compare(&self, dice: &mut Dice) -> Result<Agreed, String> {
        let record = self.record.clone();
        let mut view = [0; VIEW];
        view.copy_from_slice(&noise(dice, VIEW));
        let lent = Left { code: 0, record, out: noise(dice, self.output), length: dice.number() as usize, view };
        let proved = self.proved(lent.clone());
        let before = stored::words(&self.record).and_then(|words| stored::read(&words));
        let (expected, steps) = self.expected(lent, before.clone());
        if proved != expected {
            return Err(self.difference(&proved, &expected));
        }
        if let (Some(steps), Some(record)) = (&steps, &before) {
            self.walk(record.n, steps, &proved.out[..proved.length])?;
        }
        let before = before.map(|record| {
            let faults = record.faults();
            (record, faults)
        });
        Ok(Agreed { code: proved.code, record: proved.record, length: proved.length, steps, before })
    }

    fn proved(&self, mut lent: Left) -> Left {
        let Left { code, record, out, length, view } = &mut lent;
        *code = match &self.call {
            Call::Begin(Operation::Update(report)) => {
                lent::node_begin_update(record, &report.to_be_bytes(), out, length)
            }
            Call::Begin(Operation::Scan) => lent::node_begin_scan(record, out, length),
            Call::Message { sender, bytes } => lent::node_message(record, *sender, bytes, out, length, view),
            Call::Frame { sender, bytes } => lent::node_frame(record, *sender, bytes, out, length, view),
        };
        lent
    }

    /// The same by the oracle. A refusal changes nothing.
    fn expected(&self, mut lent: Left, before: Option<Record>) -> (Left, Option<Vec<Step>>) {
        match self.oracle(before) {
            Err(Refusal(number)) => {
                lent.code = number;
                (lent, None)
            }
            Ok((after, steps)) => {
                let step = Step::joined(&steps);
                lent.code = code(&step.ending);
                lent.record = stored::bytes(&stored::write(&after));
                let sent: Vec<u8> = step.sent.iter().flat_map(|(_, message)| wire::write(message)).collect();
                lent.out[..sent.len()].copy_from_slice(&sent);
                lent.length = sent.len();
                if let Some(Ending::Scan(_, view)) = &step.ending {
                    let shown = wire::view_bytes(view);
                    lent.view = [0; VIEW];
                    lent.view[..shown.len()].copy_from_slice(&shown);
                }
                (lent, Some(steps))
            }
        }
    }

    fn oracle(&self, before: Option<Record>) -> Result<(Record, Vec<Step>), Refusal> {
        if self.record.len() != stored::SIZE || self.output < self.call.least_output() {
            return Err(BAD_LENGTH);
        }
        let mut record = before.ok_or(UNUSABLE)?;
        let steps = match &self.call {
            Call::Begin(operation) => vec![record.begin(*operation, self.output)?],
            Call::Message { sender, bytes } => vec![record.message(*sender, bytes, self.output)?],
            Call::Frame { sender, bytes } => record.frame(*sender, bytes, self.output)?,
        };
        Ok((record, steps))
    }

    /// The output is walked message by message: each is found with its length and with who gets it.
    fn walk(&self, n: usize, steps: &[Step], mut rest: &[u8]) -> Result<(), String> {
        for (to, message) in steps.iter().flat_map(|step| &step.sent) {
            let (mut length, mut route) = (0, 0);
            let code = lent::next(n, rest, &mut length, &mut route);
            let expected = (0, wire::write(message).len(), u8::from(*to != To::All));
            if (code, length, route) != expected {
                return Err(format!("walking an output: {:?}, not {expected:?}", (code, length, route)));
            }
            if let (To::One(receiver), Call::Message { sender, .. } | Call::Frame { sender, .. }) = (to, &self.call) {
                assert_eq!(receiver, sender, "an answer goes to the sender of the message handled");
            }
            rest = &rest[length..];
        }
        if rest.is_empty() {
            Ok(())
        } else {
            Err("walking an output: bytes are left over".to_string())
        }
    }

    /// Tells of a case on which the two sides differ all that is needed to look into it.
    fn difference(&self, proved: &Left, expected: &Left) -> String {
        let mut text = format!("code {}, expected {}\n", proved.code, expected.code);
        let mut tell = |name: &str, proved: &[u8], expected: &[u8]| {
            if let Some(place) = (0..proved.len()).find(|&place| proved[place] != expected[place]) {
                let (got, due) = (&proved[place & !7..], &expected[place & !7..]);
                let first = |bytes: &[u8]| bytes[..bytes.len().min(8)].to_vec();
                _ = writeln!(text, "{name}: at byte {place} {:02x?}, expected {:02x?}", first(got), first(due));
            }
        };
        tell("record", &proved.record, &expected.record);
        tell("out", &proved.out, &expected.out);
        tell("view", &proved.view, &expected.view);
        if proved.length != expected.length {
            _ = writeln!(text, "length: {}, expected {}", proved.length, expected.length);
        }
        _ = writeln!(
            text,
            "call: {:?}, {} bytes for the record, {} for output",
            self.call,
            self.record.len(),
            self.output
        );
        if let Some(words) = stored::words(&self.record) {
            _ = writeln!(
                text,
                "head before: {:x?}\nrecord before: {:x?}",
                &words[..=stored::REPORT],
                stored::read(&words)
            );
        }
        text
    }
}

/// The code of a call at a node, or of an event in a cluster, that was not refused.
pub fn code(ending: &Option<Ending>) -> u8 {
    let rule_code = |rule: &Rule| match rule {
        Rule::Borrowed => 0,
        Rule::Round(round) => *round,
    };
    match ending {
        None => 0,
        Some(Ending::Spent) => 13,
        Some(Ending::Done(rule, _)) => 100 + rule_code(rule),
        Some(Ending::Scan(rule, _)) => 110 + rule_code(rule),
    }
}

/// A fresh record in so many bytes that hold anything before. Gives the code and what is left.
pub fn compare_fresh(dice: &mut Dice, n: usize, f: usize, own: usize, size: usize) -> Result<(u8, Vec<u8>), String> {
    let mut record = noise(dice, size);
    let expected = match Record::fresh(n, f, own) {
        Err(Refusal(number)) => (number, record.clone()),
        Ok(_) if size != stored::SIZE => (BAD_LENGTH.0, record.clone()),
        Ok(fresh) => (0, stored::bytes(&stored::write(&fresh))),
    };
    let proved = (lent::node_fresh(n, f, own, &mut record), record);
    if proved == expected {
        Ok(proved)
    } else {
        Err(format!("fresh {n} {f} {own} in {size} bytes: code {}, expected {}", proved.0, expected.0))
    }
}

/// The message at the front of any bytes. Gives the code.
pub fn compare_next(dice: &mut Dice, n: usize, bytes: &[u8]) -> Result<u8, String> {
    let (mut length, mut route) = (dice.number() as usize, dice.number() as u8);
    let expected = if !(1..=NODES).contains(&n) {
        (BAD_NUMBER.0, length, route)
    } else {
        match wire::front(n, bytes) {
            None => (NOT_OF_THE_LAYOUT.0, length, route),
            Some((message, length)) => (0, length, u8::from(message.is_answer())),
        }
    };
    let code = lent::next(n, bytes, &mut length, &mut route);
    if (code, length, route) == expected {
        Ok(code)
    } else {
        Err(format!("next {n} {bytes:02x?}: {:?}, expected {expected:?}", (code, length, route)))
    }
}

/// The page of any bytes, over anything in its buffer. Gives the code.
pub fn compare_page(dice: &mut Dice, lent: &Page) -> Result<u8, String> {
    let (mut out, mut length) = (noise(dice, lent.size), dice.number() as usize);
    let (mut due_out, mut due_length) = (out.clone(), length);
    let due = match page::write(lent.n, &lent.view, &mut due_out) {
        Err(Refusal(number)) => number,
        Ok(written) => {
            due_length = written;
            0
        }
    };
    let code = lent::page(lent.n, &lent.view, &mut out, &mut length);
    if (code, length, &out) == (due, due_length, &due_out) {
        return Ok(code);
    }
    let Page { n, view, size } = lent;
    let place = (0..*size).find(|&place| out[place] != due_out[place]);
    let [got, due] = [(code, length), (due, due_length)].map(|(code, length)| format!("code {code}, length {length}"));
    Err(format!("page {n} {view:02x?} in {size} bytes: {got}, expected {due}; first byte that differs: {place:?}"))
}
