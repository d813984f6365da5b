//! Operations: what a client asks for, and how it ends.
use crate::lent::{DONE, SCAN, SPENT, TAKEN};
use crate::refusal::Refusal;
use crate::view::{Report, View};
use crate::VIEW;

/// What a client asks of a node.
#[derive(Clone, Copy, Debug, PartialEq, Eq)]
pub enum Operation {
    /// Posts the node's report.
    Update(Report),
    /// Shows the reports of all nodes together (document 01's look).
    Scan,
}

/// How an operation came by its view.
#[derive(Clone, Copy, Debug, PartialEq, Eq)]
pub enum Rule {
    /// By its own round with this number, 1 to 3.
    Direct(u8),
    /// By a good message of another operation, which it kept.
    Borrowed,
}

/// How an operation ends.
// A view is handed over by value: nothing here is allocated.
#[allow(clippy::large_enum_variant)]
#[derive(Clone, Copy, Debug, PartialEq, Eq)]
pub enum Ending {
    /// An update is done.
    Done(Rule),
    /// A scan has ended, with this view.
    Scan(Rule, View),
    /// An update found no tag left (document 01's 13). Its report went to nobody.
    Spent,
}

// The codes of endings by the last rule, that of round 3.
const DONE_LAST: u8 = DONE + 3;
const SCAN_LAST: u8 = SCAN + 3;

/// What the code of an event says; `view` is what the event has left, for n nodes.
pub(crate) fn ending(code: u8, n: usize, view: &[u8; VIEW]) -> Result<Option<Ending>, Refusal> {
    let rule = |number| match number {
        0 => Rule::Borrowed,
        round => Rule::Direct(round),
    };
    match code {
        TAKEN => Ok(None),
        SPENT => Ok(Some(Ending::Spent)),
        DONE..=DONE_LAST => Ok(Some(Ending::Done(rule(code - DONE)))),
        SCAN..=SCAN_LAST => Ok(Some(Ending::Scan(rule(code - SCAN), View::shown(n, view)))),
        _ => Err(Refusal::of_code(code)),
    }
}

#[cfg(test)]
mod tests {
    use super::*;

    #[test]
    fn each_code_has_its_meaning() {
        let mut bytes = [0; VIEW];
        bytes[7] = 5;
        let view = View::from_bytes(2, &bytes[..32]).unwrap();
        let rules = [Rule::Borrowed, Rule::Direct(1), Rule::Direct(2), Rule::Direct(3)];
        assert_eq!(ending(0, 2, &bytes), Ok(None));
        assert_eq!(ending(13, 2, &bytes), Ok(Some(Ending::Spent)));
        for (i, rule) in (0..).zip(rules) {
            assert_eq!(ending(100 + i, 2, &bytes), Ok(Some(Ending::Done(rule))));
            assert_eq!(ending(110 + i, 2, &bytes), Ok(Some(Ending::Scan(rule, view))));
        }
        for refusal in Refusal::ALL {
            assert_eq!(ending(refusal.number(), 2, &bytes), Err(refusal));
        }
    }

    #[test]
    fn no_other_code_has_one() {
        for code in (16..100).chain(104..110).chain(114..=255) {
            let told = std::panic::catch_unwind(|| ending(code, 1, &[0; VIEW]));
            assert!(told.is_err(), "{code}");
        }
    }
}
