//! Plays a session: each line is an event of one cluster, and whoever watches sees each outcome.

use crate::cluster::{Accepted, Cluster, Event, Outcome, BAD_LINE};
use crate::message::View;
use crate::node::Ending;
use crate::text::{parse_event, parse_first, Lines};
use std::io::{self, Read};

/// One event of a session as it went. A bad line is an event without a meaning.
pub struct Played {
    /// Events count from 1. A bad first line counts as event 0.
    pub number: usize,
    pub event: Option<Event>,
    pub outcome: Outcome,
}

/// Plays the input to its end and hands each event to `watch`, with the cluster after it. A bad first line is handed
/// over without a cluster and ends the session.
pub fn play<R: Read>(input: R, mut watch: impl FnMut(Played, Option<&Cluster>) -> io::Result<()>) -> io::Result<()> {
    let mut lines = Lines::new(input);
    let first = lines.next_line()?.as_ref().and_then(parse_first);
    let Some(mut cluster) = first.and_then(|(n, f)| Cluster::fresh(n, f).ok()) else {
        return watch(Played { number: 0, event: None, outcome: Err(BAD_LINE) }, None);
    };
    let mut number = 0;
    while let Some(line) = lines.next_line()? {
        number += 1;
        let event = parse_event(&line);
        let outcome = event.as_ref().map_or(Err(BAD_LINE), |event| cluster.event(event));
        watch(Played { number, event, outcome }, Some(&cluster))?;
    }
    Ok(())
}

/// Plays the input to its end and gives the view of the last scan that ended, if one did.
pub fn last_scan<R: Read>(input: R) -> io::Result<Option<View>> {
    let mut last = None;
    play(input, |played, _| {
        if let Ok(Accepted { ending: Some(Ending::Scan(_, view)), .. }) = played.outcome {
            last = Some(view);
        }
        Ok(())
    })?;
    Ok(last)
}
