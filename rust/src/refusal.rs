//! Refusals.
use crate::lent::TAKEN;
use std::error::Error;
use std::fmt;

/// Why a call was refused, by the numbers of documents 01 and 02. The first that applies is given, in the order that
/// each call names, and only on its condition. The record, the cluster and all bytes that were lent are as they were;
/// an [`Output`](crate::Output) is empty.
///
/// ```
/// use snapshot::{Node, Refusal};
///
/// let refusal = Node::fresh(17, 8, 1).unwrap_err();
/// assert_eq!(refusal, Refusal::Size);
/// assert_eq!(refusal.number(), 1);
/// println!("refused: {refusal}");
/// ```
#[derive(Clone, Copy, Debug, PartialEq, Eq, Hash)]
#[repr(u8)]
pub enum Refusal {
    /// The number n of nodes is not 1 to 16, f is not 0 to 7 with 2f < n, or the own number is not 1 to n.
    Size = 1,
    /// The record or the cluster cannot be used: its numbers or tables break their limits, or its records do not agree.
    Unusable = 2,
    /// The node's number is not 1 to n.
    Node = 3,
    /// The node has stopped.
    Stopped = 4,
    /// An operation is open at the node.
    Open = 5,
    /// Fewer than five request numbers are left.
    Requests = 6,
    /// The bytes or numbers are not of the layout.
    Layout = 7,
    /// Nothing waits on the channel (document 01's trunk).
    Empty = 8,
    /// A value that cannot come now.
    Value = 9,
    /// One more stop would leave no quorum.
    Stops = 10,
    /// A channel would hold more than sixteen messages.
    Full = 11,
    /// Lent bytes of a wrong length, or too few of them.
    Length = 12,
    /// A frame that is empty, or longer than [`FRAME`](crate::FRAME) bytes. (13 is an ending: an update is spent.)
    Frame = 14,
    /// Lent bytes that are too few for the page.
    Page = 15,
}

use Refusal::*;

impl Refusal {
    /// All of them, in the order of their numbers.
    pub const ALL: [Refusal; 14] =
        [Size, Unusable, Node, Stopped, Open, Requests, Layout, Empty, Value, Stops, Full, Length, Frame, Page];

    /// Its number, which is the call's code too.
    pub fn number(self) -> u8 {
        self as u8
    }

    /// The refusal with this number.
    pub fn from_number(number: u8) -> Option<Refusal> {
        Refusal::ALL.into_iter().find(|r| r.number() == number)
    }

    /// That of a code which is no result. The archive gives no others.
    pub(crate) fn of_code(code: u8) -> Refusal {
        Refusal::from_number(code).unwrap_or_else(|| panic!("the archive answers {code}, which has no meaning here"))
    }
}

/// What a call that only succeeds or is refused answers with its code.
pub(crate) fn accepted(code: u8) -> Result<(), Refusal> {
    match code {
        TAKEN => Ok(()),
        _ => Err(Refusal::of_code(code)),
    }
}

impl fmt::Display for Refusal {
    fn fmt(&self, f: &mut fmt::Formatter) -> fmt::Result {
        f.write_str(match self {
            Size => "the number of nodes is not 1 to 16, f not below half of it, or the own number not one of them",
            Unusable => "the record or cluster is not usable",
            Node => "there is no node with this number",
            Stopped => "the node has stopped",
            Open => "an operation is open at the node",
            Requests => "fewer than five request numbers are left",
            Layout => "the bytes or numbers are not of the layout",
            Empty => "nothing waits on this channel",
            Value => "the value cannot come now",
            Stops => "one more stop would leave no quorum",
            Full => "a channel would hold more than sixteen messages",
            Length => "the bytes have a wrong length",
            Frame => "the frame is empty or too long",
            Page => "the bytes are too few for the page",
        })
    }
}

impl Error for Refusal {}

#[cfg(test)]
mod tests {
    use super::*;

    #[test]
    fn numbers_are_those_of_the_documents() {
        for (number, refusal) in (1..=12).chain([14, 15]).zip(Refusal::ALL) {
            assert_eq!(refusal.number(), number);
            assert_eq!(Refusal::from_number(number), Some(refusal));
        }
        for number in (16..=255).chain([0, 13]) {
            assert_eq!(Refusal::from_number(number), None);
        }
    }

    #[test]
    fn each_has_words_of_its_own() {
        let words: std::collections::BTreeSet<String> = Refusal::ALL.iter().map(Refusal::to_string).collect();
        assert_eq!(words.len(), Refusal::ALL.len());
    }

    #[test]
    fn accepted_is_0_alone() {
        assert_eq!(accepted(0), Ok(()));
        assert_eq!(accepted(12), Err(Length));
    }

    #[test]
    #[should_panic(expected = "answers 99")]
    fn a_code_without_meaning_is_not_passed_over() {
        let _ = accepted(99);
    }
}
