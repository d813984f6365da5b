//! What has occurred in frames: how long they were, what ended in them, and where their faults were.

use super::Tally;
use crate::case::Agreed;
use oracle::cluster::Refusal;
use oracle::message::NodeId;
use oracle::node::Step;
use oracle::record::{Record, BAD_FRAME, CANNOT_COME_NOW, LEAST_OUTPUT, LONGEST_FRAME, NOT_OF_THE_LAYOUT};
use oracle::wire;

/// The kinds of messages, by the byte that says which one it is.
const KINDS: [&str; 7] = ["read", "read answer", "write", "write answer", "echo", "value", "good"];

const EMPTY: &str = "frame refused: empty";
const ONE_TOO_LONG: &str = "frame refused: 1501 bytes";
const LONGER: &str = "frame refused: more bytes";
const LAYOUT_BEHIND_VALUE: &str = "frame refused: 7 behind a 9";
const LONGEST: &str = "frame taken: 1500 bytes";

impl Tally {
    /// Counts a frame that came upon a record.
    pub(super) fn see_frame(&mut self, record: &Record, sender: NodeId, frame: &[u8], agreed: &Agreed) {
        if let Some(steps) = &agreed.steps {
            self.longest = self.longest.max(agreed.length);
            self.see_taken(record.n, frame, steps);
        } else if agreed.code == BAD_FRAME.0 {
            self.count(match frame.len() {
                0 => EMPTY,
                length if length == LONGEST_FRAME + 1 => ONE_TOO_LONG,
                _ => LONGER,
            });
        } else if [NOT_OF_THE_LAYOUT.0, CANNOT_COME_NOW.0].contains(&agreed.code) {
            let (place, refusal) = first_refused(record.clone(), sender, frame);
            self.count(if refusal.0 == agreed.code { behind(refusal, place) } else { LAYOUT_BEHIND_VALUE.to_string() });
        }
    }

    fn see_taken(&mut self, n: usize, frame: &[u8], steps: &[Step]) {
        self.count("frame taken: in all");
        self.count(taken(steps.len()));
        self.add("frame taken: messages in all", steps.len());
        if frame.len() == LONGEST_FRAME {
            self.count(LONGEST);
        }
        if let Some(place) = steps.iter().position(|step| step.ending.is_some()) {
            let messages = wire::split(n, frame).expect("a frame that was taken has messages");
            let kind = KINDS[usize::from(messages[place][3]) - 1];
            self.count("frame taken: ended an operation");
            self.count(ended(kind, place + 1 < messages.len()));
        }
    }
}

/// Which message of a frame is the first to be refused if they are given one by one, and how.
fn first_refused(mut record: Record, sender: NodeId, mut frame: &[u8]) -> (usize, Refusal) {
    let mut place = 0;
    loop {
        let Some((_, length)) = wire::front(record.n, frame) else { return (place, NOT_OF_THE_LAYOUT) };
        if let Err(refusal) = record.message(sender, &frame[..length], LEAST_OUTPUT) {
            return (place, refusal);
        }
        (place, frame) = (place + 1, &frame[length..]);
    }
}

fn taken(messages: usize) -> String {
    format!("frame taken: messages {}", span(messages))
}

fn behind(refusal: Refusal, messages: usize) -> String {
    format!("frame refused: {} behind messages {}", refusal.0, span(messages))
}

fn ended(kind: &str, more: bool) -> String {
    format!("frame taken: ended by {kind}, {}", if more { "others behind it" } else { "the last" })
}

fn span(messages: usize) -> &'static str {
    match messages {
        0 => "  0",
        1 => "  1",
        2..=9 => "  2 to 9",
        10..=49 => " 10 to 49",
        50..=99 => " 50 to 99",
        _ => "100",
    }
}

/// What has to occur.
pub(super) fn needed() -> Vec<String> {
    let ends = ["read answer", "write answer", "value", "good"];
    let faults = [NOT_OF_THE_LAYOUT, CANNOT_COME_NOW];
    [
        [EMPTY, ONE_TOO_LONG, LONGER, LAYOUT_BEHIND_VALUE, LONGEST].map(String::from).to_vec(),
        [1, 2, 10, 50, 100].map(taken).to_vec(),
        faults.iter().flat_map(|fault| [0, 1, 2, 10, 50].map(|messages| behind(*fault, messages))).collect(),
        ends.iter().flat_map(|kind| [false, true].map(|more| ended(kind, more))).collect(),
    ]
    .concat()
}
