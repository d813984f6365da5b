//! What happened in a session, counted: so that it can be seen which cases random sessions reach.

use crate::cluster::{Cluster, Event, Extent, CAPACITY};
use crate::message::Message;
use crate::node::{Ending, Operation, Rule};
use crate::session::Played;
use std::collections::BTreeMap;
use std::fmt;

#[derive(Default)]
pub struct Stats {
    counts: BTreeMap<String, usize>,
}

impl Stats {
    fn count(&mut self, name: impl Into<String>) {
        *self.counts.entry(name.into()).or_default() += 1;
    }

    /// Counts one event. `cluster` is the cluster after it, if the session has one.
    pub fn see(&mut self, played: &Played, cluster: Option<&Cluster>) {
        self.count("events");
        let (Some(event), Ok(accepted)) = (&played.event, &played.outcome) else {
            if let Err(refusal) = played.outcome {
                self.count(format!("refused-{:02}", refusal.0));
            }
            return;
        };
        match *event {
            Event::Begin { operation: Operation::Update(_), .. } => self.count("begun-update"),
            Event::Begin { operation: Operation::Scan, .. } => self.count("begun-scan"),
            Event::Deliver { .. } => self.count("delivered"),
            Event::Stop { .. } => self.count("stopped"),
        }
        match &accepted.ending {
            Some(Ending::Done(rule, _)) => self.count(format!("ended-update-{}", rule_name(*rule))),
            Some(Ending::Scan(rule, _)) => self.count(format!("ended-scan-{}", rule_name(*rule))),
            Some(Ending::Spent) => self.count("ended-update-spent"),
            None => (),
        }
        let Some(cluster) = cluster else { return };
        match *event {
            Event::Begin { extent: Extent::Cut(_), .. } => self.count("cut-begin"),
            Event::Deliver { extent: Extent::Cut(m), .. } => {
                self.count("cut-delivery");
                self.count_cut(m, &accepted.let_out, cluster.n());
            }
            _ => (),
        }
        let lengths = |from| (1..=cluster.n()).map(move |to| cluster.channel(from, to).len());
        if lengths(event.node()).any(|length| length == CAPACITY) {
            self.count("channel-with-16");
        }
        if (1..=cluster.n()).flat_map(lengths).all(|length| length == 0) {
            self.count("nothing-waits");
        }
    }

    /// Where a cut fell: after the first m entries, inside a message's way to all or not.
    fn count_cut(&mut self, m: usize, let_out: &[(usize, Message)], n: usize) {
        if m == 0 {
            self.count("cut-at-nothing");
        } else if m > let_out.len() {
            self.count("cut-past-all");
        }
        if let (true, Some((to, message))) = (m == let_out.len(), let_out.last()) {
            if *to < n && matches!(message, Message::Value(_)) {
                self.count("cut-inside-value");
            }
            if *to < n && matches!(message, Message::Write { .. } | Message::Good { .. } | Message::Echo { .. }) {
                self.count("cut-inside-other");
            }
        }
    }
}

fn rule_name(rule: Rule) -> String {
    match rule {
        Rule::Round(round) => format!("round-{round}"),
        Rule::Borrowed => "borrowed".to_string(),
    }
}

impl fmt::Display for Stats {
    fn fmt(&self, f: &mut fmt::Formatter<'_>) -> fmt::Result {
        self.counts.iter().try_for_each(|(name, count)| writeln!(f, "{name} {count}"))
    }
}
