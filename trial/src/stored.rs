//! A node's record in bytes, as it is lent to the calls for C: 397 big-endian words of eight bytes.
//!
//! | words | what |
//! |---|---|
//! | 0 to 5 | n, f, own, max_tag, request, kept |
//! | 6 to 11 | the wait: its code, kind, round, tag, answered (a bit for each sender), largest |
//! | 12 | the report of an update that reads |
//! | 13 to 268 | the tags heard, by sender and then by writer, sixteen of each |
//! | 269 to 396 | four views of sixteen entries, a tag and a report each: last, at_max, at_round, kept_view |

use oracle::message::NodeId;
use oracle::node::Operation;
use oracle::record::{Held, Kind, Record, Wait, NODES};
use std::collections::BTreeSet;

pub const N: usize = 0;
pub const F: usize = 1;
pub const OWN: usize = 2;
pub const MAX_TAG: usize = 3;
pub const REQUEST: usize = 4;
pub const KEPT: usize = 5;
pub const CODE: usize = 6;
pub const KIND: usize = 7;
pub const ROUND: usize = 8;
pub const TAG: usize = 9;
pub const ANSWERED: usize = 10;
pub const LARGEST: usize = 11;
pub const REPORT: usize = 12;
const HEARD: usize = 13;
const VIEWS: usize = HEARD + NODES * NODES;
pub const WORDS: usize = VIEWS + 4 * 2 * NODES;
pub const SIZE: usize = 8 * WORDS;

/// The views by number.
pub const LAST: usize = 0;
pub const AT_MAX: usize = 1;
pub const AT_ROUND: usize = 2;
pub const KEPT_VIEW: usize = 3;

/// The codes of a wait.
pub const IDLE: u64 = 0;
pub const READING: u64 = 1;
pub const WRITING: u64 = 2;
pub const COMPARING: u64 = 3;
pub const BORROWING: u64 = 4;

/// The words of a record.
pub type Words = [u64; WORDS];

/// The word of a tag heard.
pub fn heard(sender: NodeId, writer: NodeId) -> usize {
    HEARD + NODES * (sender - 1) + writer - 1
}

/// The word of a tag in a view; the report is in the next.
pub fn entry(view: usize, writer: NodeId) -> usize {
    VIEWS + 2 * (NODES * view + writer - 1)
}

/// The words of as many bytes as a record has.
pub fn words(bytes: &[u8]) -> Option<Words> {
    let bytes: &[u8; SIZE] = bytes.try_into().ok()?;
    let mut words = [0; WORDS];
    for (word, bytes) in words.iter_mut().zip(bytes.chunks_exact(8)) {
        *word = bytes.iter().fold(0, |sum, &byte| sum << 8 | u64::from(byte));
    }
    Some(words)
}

pub fn bytes(words: &Words) -> Vec<u8> {
    words.iter().flat_map(|word| word.to_be_bytes()).collect()
}

/// The record that words are; none where the wait's code, or its kind where it has one, is none of the known.
pub fn read(words: &Words) -> Option<Record> {
    let kind = || match words[KIND] {
        0 => Some(Kind::Scan),
        1 => Some(Kind::Update),
        _ => None,
    };
    let answered =
        || -> BTreeSet<NodeId> { (1..=64).filter(|sender| words[ANSWERED] >> (sender - 1) & 1 == 1).collect() };
    let wait = match words[CODE] {
        IDLE => None,
        READING => {
            let operation = match kind()? {
                Kind::Scan => Operation::Scan,
                Kind::Update => Operation::Update(words[REPORT]),
            };
            Some(Wait::Reading { operation, answered: answered(), largest: words[LARGEST] })
        }
        WRITING => Some(Wait::Writing { kind: kind()?, round: words[ROUND], tag: words[TAG], answered: answered() }),
        COMPARING => Some(Wait::Comparing { kind: kind()?, round: words[ROUND], tag: words[TAG] }),
        BORROWING => Some(Wait::Borrowing { kind: kind()?, tag: words[TAG] }),
        _ => return None,
    };
    let nodes = || 1..=NODES;
    let pairs = nodes().flat_map(|sender| nodes().map(move |writer| (sender, writer)));
    let tags = pairs.map(|(sender, writer)| ((sender, writer), words[heard(sender, writer)]));
    let held = |view: usize| -> Held {
        let reports = nodes().map(|writer| (writer, (words[entry(view, writer)], words[entry(view, writer) + 1])));
        reports.filter(|held| held.1 != (0, 0)).collect()
    };
    Some(Record {
        n: words[N] as usize,
        f: words[F] as usize,
        own: words[OWN] as usize,
        max_tag: words[MAX_TAG],
        request: words[REQUEST],
        kept: words[KEPT],
        wait,
        heard: tags.filter(|heard| heard.1 != 0).collect(),
        last: held(LAST),
        at_max: held(AT_MAX),
        at_round: held(AT_ROUND),
        kept_view: held(KEPT_VIEW),
    })
}

/// The words of a record. What stands for nothing in it is zero.
pub fn write(record: &Record) -> Words {
    let mut words = [0; WORDS];
    words[N] = record.n as u64;
    words[F] = record.f as u64;
    words[OWN] = record.own as u64;
    words[MAX_TAG] = record.max_tag;
    words[REQUEST] = record.request;
    words[KEPT] = record.kept;
    let mask = |answered: &BTreeSet<NodeId>| answered.iter().map(|sender| 1 << (sender - 1)).sum();
    let kind_code = |kind: &Kind| u64::from(*kind == Kind::Update);
    match &record.wait {
        None => words[CODE] = IDLE,
        Some(Wait::Reading { operation, answered, largest }) => {
            words[CODE] = READING;
            if let Operation::Update(report) = operation {
                (words[KIND], words[REPORT]) = (1, *report);
            }
            (words[ANSWERED], words[LARGEST]) = (mask(answered), *largest);
        }
        Some(Wait::Writing { kind, round, tag, answered }) => {
            (words[CODE], words[KIND], words[ROUND], words[TAG]) = (WRITING, kind_code(kind), *round, *tag);
            words[ANSWERED] = mask(answered);
        }
        Some(Wait::Comparing { kind, round, tag }) => {
            (words[CODE], words[KIND], words[ROUND], words[TAG]) = (COMPARING, kind_code(kind), *round, *tag);
        }
        Some(Wait::Borrowing { kind, tag }) => {
            (words[CODE], words[KIND], words[TAG]) = (BORROWING, kind_code(kind), *tag);
        }
    }
    for (&(sender, writer), &tag) in &record.heard {
        words[heard(sender, writer)] = tag;
    }
    for (view, held) in [&record.last, &record.at_max, &record.at_round, &record.kept_view].into_iter().enumerate() {
        for (&writer, &(tag, report)) in held {
            (words[entry(view, writer)], words[entry(view, writer) + 1]) = (tag, report);
        }
    }
    words
}

#[cfg(test)]
mod tests {
    use super::*;
    use crate::records::crowded;
    use oracle::dice::Dice;

    /// What stands for nothing is zero in the words of a record, so the first reading takes it away.
    #[test]
    fn a_record_is_read_back_from_its_words() {
        let mut dice = Dice::new(1);
        for _ in 0..1000 {
            let record = read(&crowded(&mut dice)).expect("crowded records have a wait");
            assert_eq!(record.judge(), Ok(()));
            let kept = bytes(&write(&record));
            assert_eq!((kept.len(), words(&kept).and_then(|words| read(&words))), (3176, Some(record)));
        }
    }
}
