//! How close a record is to the limits of refusal 2.

use oracle::cluster::most_faults;
use oracle::message::{Tag, LIMIT};
use oracle::node::Operation;
use oracle::record::{Held, Record, Wait, NODES};
use std::collections::BTreeSet;

/// The names of the numbers that refusal 2 holds against a limit.
pub const LIMITED: [&str; 19] = [
    "n",
    "f",
    "own",
    "max_tag",
    "request",
    "kept",
    "heard",
    "last",
    "held for max_tag",
    "held for a round",
    "held for no round",
    "in the kept view",
    "largest answer",
    "sender of a read answer",
    "sender of a write answer",
    "round",
    "tag of round 0",
    "tag of a later round",
    "tag of a borrowing",
];

/// Those that the record has, each with its limit; of tables the largest.
pub fn limited(record: &Record) -> Vec<(&'static str, u64, u64)> {
    let largest = |held: &Held| -> Tag { held.values().map(|report| report.0).max().unwrap_or(0) };
    let sender = |answered: &BTreeSet<usize>| answered.last().map_or(0, |&sender| sender as u64);
    let n = record.n as u64;
    let mut limited = vec![
        ("n", n, NODES as u64),
        ("f", record.f as u64, most_faults(record.n) as u64),
        ("own", record.own as u64, n),
        ("max_tag", record.max_tag, LIMIT),
        ("request", record.request, LIMIT),
        ("kept", record.kept, LIMIT),
        ("heard", record.heard.values().max().copied().unwrap_or(0), LIMIT),
        ("last", largest(&record.last), LIMIT),
        ("held for max_tag", largest(&record.at_max), record.max_tag),
        ("in the kept view", largest(&record.kept_view), record.kept),
    ];
    match record.round() {
        None => limited.push(("held for no round", largest(&record.at_round), LIMIT)),
        Some((round, tag)) => {
            limited.extend([("held for a round", largest(&record.at_round), tag), ("round", round, 3)]);
            limited.push(match round {
                0 => ("tag of round 0", tag, LIMIT - 1),
                _ => ("tag of a later round", tag, LIMIT),
            });
        }
    }
    match &record.wait {
        Some(Wait::Reading { answered, largest, .. }) => {
            limited.extend([("largest answer", *largest, LIMIT), ("sender of a read answer", sender(answered), n)]);
        }
        Some(Wait::Writing { answered, .. }) => limited.push(("sender of a write answer", sender(answered), n)),
        Some(Wait::Borrowing { tag, .. }) => limited.push(("tag of a borrowing", *tag, LIMIT)),
        None | Some(Wait::Comparing { .. }) => (),
    }
    limited
}

/// The name of a wait, with what decides how many request numbers it may still use.
pub fn wait_name(record: &Record) -> String {
    match &record.wait {
        None => "idle".to_string(),
        Some(Wait::Reading { operation: Operation::Update(_), .. }) => "reading, update".to_string(),
        Some(Wait::Reading { operation: Operation::Scan, .. }) => "reading, scan".to_string(),
        Some(Wait::Writing { round, .. }) => format!("writing, round {round}"),
        Some(Wait::Comparing { round, .. }) => format!("comparing, round {round}"),
        Some(Wait::Borrowing { .. }) => "borrowing".to_string(),
    }
}

/// All names of waits of usable records, with the request numbers that each may still use.
pub fn waits() -> Vec<(String, u64)> {
    let rounds = |wait: &str| (0..=3).map(|round| (format!("{wait}, round {round}"), 3 - round)).collect::<Vec<_>>();
    let others = [("idle", 0), ("reading, update", 4), ("reading, scan", 3), ("borrowing", 0)];
    let others = others.map(|(wait, due)| (wait.to_string(), due)).to_vec();
    [others, rounds("writing"), rounds("comparing")].concat()
}
