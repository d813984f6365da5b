//! What has occurred, counted; and what must have.
mod cluster;
mod frame;
mod page;

use crate::case::{Agreed, Call, Case};
use crate::limits::{limited, wait_name, waits, LIMITED};
use oracle::cluster::most_faults;
use oracle::message::LIMIT;
use oracle::record::{Fault, Record, NODES};
use std::collections::BTreeMap;
use std::fmt;

/// The codes of calls that are not refused.
const ENDINGS: [u8; 10] = [0, 13, 100, 101, 102, 103, 110, 111, 112, 113];

const NO_RECORD: &str = "unusable: no such wait or kind";

/// A step of a network, and one whose messages came in a frame.
pub const RUN: &str = "run";
pub const RUN_FRAME: &str = "run, in a frame";

/// A node of a network stopped halfway through a list.
pub const CUT_HALFWAY: &str = "run: cut halfway";

/// A network in which so many nodes may stop.
pub fn with_f(f: usize) -> String {
    format!("networks with f = {f}")
}

#[derive(Default)]
pub struct Tally {
    counts: BTreeMap<String, usize>,
    /// The bytes of the longest output of a frame.
    longest: usize,
}

impl Tally {
    pub fn count(&mut self, name: impl Into<String>) {
        self.add(name, 1);
    }

    fn add(&mut self, name: impl Into<String>, more: usize) {
        *self.counts.entry(name.into()).or_default() += more;
    }

    /// Counts a case by its answer and by how close its record came to being unusable, or usable.
    pub fn see(&mut self, case: &Case, agreed: &Agreed) {
        let name = match case.call {
            Call::Begin(_) => "begin",
            Call::Message { .. } => "message",
            Call::Frame { .. } => "frame",
        };
        self.count(format!("{name}: {}", agreed.code));
        match &agreed.before {
            None if agreed.code == 2 => self.count(NO_RECORD),
            Some((record, faults)) if agreed.code != 12 => {
                self.see_record(record, faults);
                if let Call::Frame { sender, bytes } = &case.call {
                    self.see_frame(record, *sender, bytes, agreed);
                }
            }
            _ => (),
        }
    }

    fn see_record(&mut self, record: &Record, faults: &[Fault]) {
        let near = |(name, number, limit): (&str, u64, u64)| match faults {
            [] if number == limit && number > 0 => Some(just_at(name)),
            [_] if number.checked_sub(limit) == Some(1) => Some(just_past(name)),
            _ => None,
        };
        limited(record).into_iter().filter_map(near).for_each(|name| self.count(name));
        if let [fault] = faults {
            self.count(alone(*fault));
        }
        let (left, due) = (LIMIT.saturating_sub(record.request), record.requests_to_come());
        match faults {
            [] if left == due => self.count(just_enough(&wait_name(record))),
            [Fault::TooFewRequests] if left + 1 == due => self.count(one_too_few(&wait_name(record))),
            _ => (),
        }
    }

    /// What has to occur and has not.
    pub fn missing(&self) -> Vec<String> {
        needed().into_iter().filter(|name| !self.counts.contains_key(name)).collect()
    }
}

fn alone(fault: Fault) -> String {
    format!("unusable: {fault:?} alone")
}

fn just_at(name: &str) -> String {
    format!("usable, just at its limit: {name}")
}

fn just_past(name: &str) -> String {
    format!("unusable, one past its limit: {name}")
}

fn just_enough(wait: &str) -> String {
    format!("usable, just enough request numbers: {wait}")
}

fn one_too_few(wait: &str) -> String {
    format!("unusable, one request number too few: {wait}")
}

fn needed() -> Vec<String> {
    let codes = |name: &str, codes: &[u8]| codes.iter().map(|code| format!("{name}: {code}")).collect::<Vec<_>>();
    let faults = [
        Fault::N,
        Fault::F,
        Fault::Own,
        Fault::Round,
        Fault::AboveLimit,
        Fault::AboveMaxTag,
        Fault::AboveRoundTag,
        Fault::AboveKeptTag,
        Fault::BytesBesideZero,
        Fault::TooFewRequests,
    ];
    let waits = waits();
    [
        codes("message", &[12, 2, 3, 7, 9]),
        codes("message", &ENDINGS),
        codes("frame", &[12, 2, 3, 14, 7, 9]),
        codes("frame", &ENDINGS),
        frame::needed(),
        codes("begin", &[0, 12, 2, 5, 6]),
        codes("fresh", &[0, 1, 12]),
        cluster::needed(),
        (0..=most_faults(NODES)).map(with_f).collect(),
        codes("next", &[0, 1, 7]),
        codes("page", &[0, 12, 1, 7, 15]),
        page::needed(),
        codes(RUN, &ENDINGS),
        codes(RUN_FRAME, &[0, 13, 101, 102, 111, 112]),
        faults.map(alone).to_vec(),
        vec![NO_RECORD.to_string(), CUT_HALFWAY.to_string()],
        LIMITED.map(just_at).to_vec(),
        LIMITED.map(just_past).to_vec(),
        waits.iter().map(|(wait, _)| just_enough(wait)).collect(),
        waits.iter().filter(|(_, due)| *due > 0).map(|(wait, _)| one_too_few(wait)).collect(),
    ]
    .concat()
}

impl fmt::Display for Tally {
    fn fmt(&self, f: &mut fmt::Formatter<'_>) -> fmt::Result {
        self.counts.iter().try_for_each(|(name, count)| writeln!(f, "{count:>9}  {name}"))?;
        writeln!(f, "{:>9}  bytes in the longest output of a frame", self.longest)
    }
}
