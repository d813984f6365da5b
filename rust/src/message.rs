//! Messages: one case of kind with its numbers, and their bytes.
use crate::lent;
use crate::refusal::{accepted, Refusal};
use crate::view::Report;

/// A message. The view of a good one stands beside it, in the bytes that it was read from or is written from.
///
/// ```
/// use snapshot::{Message, Refusal, LONGEST};
///
/// let mut bytes = [0; LONGEST];
/// let length = Message::Read { request: 1 }.write(3, &[], &mut bytes)?;
/// assert_eq!(bytes[..length], [1, 0, 1, 1, 2, 0, 8, 0, 0, 0, 0, 0, 0, 0, 1]);
///
/// let view = [0; 48];
/// let length = Message::Good { tag: 7 }.write(3, &view, &mut bytes)?;
/// assert_eq!(Message::read(3, &bytes[..length])?, (Message::Good { tag: 7 }, &view[..]));
/// # Ok::<(), Refusal>(())
/// ```
#[derive(Clone, Copy, Debug, PartialEq, Eq)]
pub enum Message {
    /// Asks for the top tag.
    Read {
        /// The asking node's request number.
        request: u64,
    },
    /// Answers a read.
    ReadAnswer {
        /// The number of the read.
        request: u64,
        /// The answering node's top tag.
        tag: u64,
    },
    /// Asks to raise the top tag.
    Write {
        /// The asking node's request number.
        request: u64,
        /// The tag to raise it to.
        tag: u64,
    },
    /// Answers a write.
    WriteAnswer {
        /// The number of the write.
        request: u64,
        /// The tag of the write.
        tag: u64,
    },
    /// Tells that a node's top tag has grown.
    Echo {
        /// The top tag.
        tag: u64,
    },
    /// Passes on a report.
    Value {
        /// The report's tag.
        tag: u64,
        /// The node that posted it.
        writer: usize,
        /// The report.
        report: Report,
    },
    /// Tells of a round that saw all: its view stands beside it.
    Good {
        /// The round's tag.
        tag: u64,
    },
}

use Message::*;

/// Where the view of a good message stands in its bytes.
const GOOD_VIEW: usize = 18;

impl Message {
    /// Reads bytes that are one message among n nodes. Beside it comes the view of a good one, as the part of `bytes`
    /// that holds it; it is empty for all else. Refusals: 1 (n is not 1 to 16), 7 (not of the layout).
    pub fn read(n: usize, bytes: &[u8]) -> Result<(Message, &[u8]), Refusal> {
        let (mut numbers, mut report) = ([0; 4], [0; 8]);
        accepted(lent::read(n, bytes, &mut numbers, &mut report))?;
        let [kind, request, writer, tag] = numbers;
        let message = match kind {
            1 => Read { request },
            2 => ReadAnswer { request, tag },
            3 => Write { request, tag },
            4 => WriteAnswer { request, tag },
            5 => Echo { tag },
            6 => Value { tag, writer: writer as usize, report: Report::from_bytes(report) },
            7 => return Ok((Good { tag }, &bytes[GOOD_VIEW..])),
            _ => panic!("the archive answers kind {kind}, which has no meaning here"),
        };
        Ok((message, &[]))
    }

    /// Writes the message among n nodes at the front of `out` and answers its length; the other bytes of `out` stay.
    /// The view is looked at only for a good one. Refusals: 1 (n is not 1 to 16), 7 (the layout does not allow the
    /// numbers or the view), 12 (`out` is shorter than the message; [`LONGEST`](crate::LONGEST) bytes hold any).
    pub fn write(&self, n: usize, view: &[u8], out: &mut [u8]) -> Result<usize, Refusal> {
        let none = Report::default();
        let (numbers, report) = match *self {
            Read { request } => ([1, request, 0, 0], none),
            ReadAnswer { request, tag } => ([2, request, 0, tag], none),
            Write { request, tag } => ([3, request, 0, tag], none),
            WriteAnswer { request, tag } => ([4, request, 0, tag], none),
            Echo { tag } => ([5, 0, 0, tag], none),
            Value { tag, writer, report } => ([6, 0, writer as u64, tag], report),
            Good { tag } => ([7, 0, 0, tag], none),
        };
        let mut length = 0;
        accepted(lent::write(n, &numbers, &report.to_bytes(), view, out, &mut length))?;
        Ok(length)
    }
}

#[cfg(test)]
mod tests {
    use super::*;
    use crate::LONGEST;

    const TOP: u64 = i64::MAX as u64;

    #[test]
    fn each_kind_comes_back_as_it_was_written() {
        let report = Report { extensions: 1, lines: 2, waiting: 3, wakeups: 65535 };
        for n in 1..=16 {
            let mut view = vec![0; 16 * n];
            view[7] = 3;
            view[15] = 200;
            let kinds = [
                (Read { request: TOP }, 15),
                (ReadAnswer { request: 1, tag: 0 }, 26),
                (Write { request: 2, tag: TOP }, 26),
                (WriteAnswer { request: 3, tag: 4 }, 26),
                (Echo { tag: 1 }, 15),
                (Value { tag: 5, writer: n, report }, 30),
                (Good { tag: 3 }, 18 + 16 * n),
            ];
            for (message, size) in kinds {
                let mut out = [77; LONGEST + 1];
                assert_eq!(message.write(n, &view, &mut out), Ok(size));
                assert!(out[size..].iter().all(|&x| x == 77), "the other bytes stay");
                let (back, beside) = Message::read(n, &out[..size]).unwrap();
                assert_eq!(back, message);
                assert_eq!(beside, if let Good { .. } = message { &view[..] } else { &[] });
                assert_eq!(message.write(n, &view, &mut out[..size - 1]), Err(Refusal::Length));
                assert_eq!(Message::read(n, &out[..size - 1]), Err(Refusal::Layout));
                assert_eq!(Message::read(n, &out[..=size]), Err(Refusal::Layout));
            }
        }
    }

    #[test]
    fn the_view_is_a_part_of_the_callers_bytes() {
        let mut bytes = [0; 34];
        Good { tag: 0 }.write(1, &[0; 16], &mut bytes).unwrap();
        let (_, view) = Message::read(1, &bytes).unwrap();
        assert_eq!(view.as_ptr_range(), bytes[18..].as_ptr_range());
    }

    #[test]
    fn numbers_that_the_layout_does_not_allow() {
        let mut out = [0; LONGEST];
        let report = Report::default();
        for message in [
            Read { request: 0 },
            Read { request: TOP + 1 },
            ReadAnswer { request: 1, tag: TOP + 1 },
            Write { request: 0, tag: 1 },
            Echo { tag: 0 },
            Value { tag: 1, writer: 0, report },
            Value { tag: 1, writer: 4, report },
            Value { tag: 1, writer: usize::MAX, report },
            Value { tag: 0, writer: 1, report },
            Good { tag: 1 },
        ] {
            assert_eq!(message.write(3, &[], &mut out), Err(Refusal::Layout), "{message:?}");
        }
        assert_eq!(Read { request: 1 }.write(0, &[], &mut out), Err(Refusal::Size));
        assert_eq!(Message::read(17, &out), Err(Refusal::Size));
    }
}
