//! Which records are usable: refusal 2, clause by clause.

use super::{Held, Record, Wait, NODES, UNUSABLE};
use crate::cluster::{can_bear, demand, Refusal};
use crate::message::{NodeId, Tag, LIMIT};
use crate::node::Operation;
use std::collections::BTreeSet;

/// Why a record is unusable: the clauses of refusal 2, in document 01's order, f after n.
#[derive(Clone, Copy, Debug, PartialEq, Eq, PartialOrd, Ord)]
pub enum Fault {
    N,
    F,
    Own,
    Round,
    AboveLimit,
    AboveMaxTag,
    AboveRoundTag,
    AboveKeptTag,
    BytesBesideZero,
    TooFewRequests,
}

impl Record {
    /// Refusal 2.
    pub fn judge(&self) -> Result<(), Refusal> {
        demand(self.faults().is_empty(), UNUSABLE)
    }

    /// Every clause of refusal 2 that applies.
    pub fn faults(&self) -> Vec<Fault> {
        let above = |held: &Held, tag: Tag| held.values().any(|report| report.0 > tag);
        let beside_zero = |held: &Held| held.values().any(|report| report.0 == 0);
        let views = [&self.last, &self.at_max, &self.at_round, &self.kept_view];
        let clauses = [
            (Fault::N, !(1..=NODES).contains(&self.n)),
            (Fault::F, !can_bear(self.n, self.f)),
            (Fault::Own, !(1..=self.n).contains(&self.own)),
            (Fault::Round, self.round().is_some_and(|(round, _)| round > 3)),
            (Fault::AboveLimit, self.has_number_above_limit()),
            (Fault::AboveMaxTag, above(&self.at_max, self.max_tag)),
            (Fault::AboveRoundTag, self.round().is_some_and(|(_, tag)| above(&self.at_round, tag))),
            (Fault::AboveKeptTag, above(&self.kept_view, self.kept)),
            (Fault::BytesBesideZero, views.into_iter().any(beside_zero)),
            (Fault::TooFewRequests, LIMIT.saturating_sub(self.request) < self.requests_to_come()),
        ];
        clauses.into_iter().filter(|clause| clause.1).map(|clause| clause.0).collect()
    }

    fn has_number_above_limit(&self) -> bool {
        let views = [&self.last, &self.at_max, &self.at_round, &self.kept_view];
        let held = views.into_iter().flat_map(|held| held.values()).map(|report| report.0);
        let mut tags = held.chain(self.heard.values().copied()).chain([self.max_tag, self.request, self.kept]);
        let past_n = |answered: &BTreeSet<NodeId>| answered.iter().any(|&node| node > self.n);
        tags.any(|tag| tag > LIMIT)
            || self.round().is_some_and(|(round, tag)| tag > round_limit(round))
            || match &self.wait {
                None | Some(Wait::Comparing { .. }) => false,
                Some(Wait::Reading { answered, largest, .. }) => *largest > LIMIT || past_n(answered),
                Some(Wait::Writing { answered, .. }) => past_n(answered),
                Some(Wait::Borrowing { tag, .. }) => *tag > LIMIT,
            }
    }

    /// The most request numbers that the open operation may still use: one for the write of each round that may come.
    pub fn requests_to_come(&self) -> u64 {
        match &self.wait {
            None | Some(Wait::Borrowing { .. }) => 0,
            Some(Wait::Reading { operation: Operation::Update(_), .. }) => 4,
            Some(Wait::Reading { operation: Operation::Scan, .. }) => 3,
            Some(Wait::Writing { round, .. } | Wait::Comparing { round, .. }) => 3u64.saturating_sub(*round),
        }
    }
}

/// The largest tag of a round. Round 0 is followed by one with a larger tag.
fn round_limit(round: u64) -> Tag {
    if round == 0 {
        LIMIT - 1
    } else {
        LIMIT
    }
}
