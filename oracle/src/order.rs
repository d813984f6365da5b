//! Demand 3 of document 01, checked on one session from what is seen from outside: events, answers, entries let out.
//!
//! A single line of operations is built, and then the four conditions are tried on it one by one, so a slip in the
//! building cannot hide.

use crate::cluster::Event;
use crate::message::{Message, NodeId, Report, Tag, View};
use crate::node::{Ending, Operation};
use crate::session::Played;

/// An accepted begin and what became of it.
#[derive(Debug)]
pub struct Op {
    pub node: NodeId,
    pub operation: Operation,
    /// The number of the begin event.
    pub begin: usize,
    /// The number of the event that gave the ending, and the ending.
    pub end: Option<(usize, Ending)>,
    /// Of an update that let out a value of its own: its tag. Document 01 calls it the update's stamp.
    pub tag: Option<Tag>,
}

impl Op {
    /// What a finished scan shows.
    pub fn view(&self) -> Option<&View> {
        match &self.end {
            Some((_, Ending::Scan(_, view))) => Some(view),
            _ => None,
        }
    }

    fn ended_before(&self, other: &Op) -> bool {
        self.end.as_ref().is_some_and(|(end, _)| *end < other.begin)
    }

    /// The tag and report that a view shows where it shows this update.
    fn written(&self) -> Option<(Tag, Report)> {
        match self.operation {
            Operation::Update(report) => self.tag.map(|tag| (tag, report)),
            Operation::Scan => None,
        }
    }

    fn shown_by(&self, scan: &Op) -> bool {
        match (scan.view(), self.written()) {
            (Some(view), Some(written)) => view[self.node - 1] == Some(written),
            _ => false,
        }
    }

    /// Whether the scan's view has this update or a later one of its node.
    fn held_by(&self, scan: &Op) -> bool {
        match (scan.view(), self.tag) {
            (Some(view), Some(tag)) => view[self.node - 1].is_some_and(|shown| shown.0 >= tag),
            _ => false,
        }
    }
}

/// The operations of a session, in the order of their begins.
pub fn operations(played: &[Played]) -> Result<Vec<Op>, String> {
    let mut ops: Vec<Op> = vec![];
    for Played { number, event, outcome } in played {
        let (Some(event), Ok(accepted)) = (event, outcome) else { continue };
        let node = event.node();
        if let Event::Begin { operation, .. } = *event {
            ops.push(Op { node, operation, begin: *number, end: None, tag: None });
        }
        if let Some(ending) = &accepted.ending {
            let op = ops.iter_mut().rev().find(|op| op.node == node && op.end.is_none());
            let op = op.ok_or(format!("event {number} ends an operation that never began"))?;
            let matching = match ending {
                Ending::Done(..) | Ending::Spent => op.operation != Operation::Scan,
                Ending::Scan(..) => op.operation == Operation::Scan,
            };
            if !matching {
                return Err(format!("event {number} ends a scan as an update or an update as a scan"));
            }
            op.end = Some((*number, ending.clone()));
        }
    }
    for op in &mut ops {
        op.tag = tag(op, played)?;
    }
    Ok(ops)
}

/// Of the tags of own values that the update's node let out between begin and ending, the one that is above all such
/// tags let out before. It is an error if two fit or if the value has another report.
fn tag(op: &Op, played: &[Played]) -> Result<Option<Tag>, String> {
    let Operation::Update(report) = op.operation else { return Ok(None) };
    let last = op.end.as_ref().map_or(usize::MAX, |end| end.0);
    let mut before = 0;
    let mut tag = None;
    for Played { number, event, outcome } in played {
        let (Some(event), Ok(accepted)) = (event, outcome) else { continue };
        if event.node() != op.node || *number > last {
            continue;
        }
        for (_, message) in &accepted.let_out {
            let Message::Value(value) = message else { continue };
            if value.writer != op.node {
                continue;
            }
            if *number < op.begin {
                before = before.max(value.tag);
            } else if value.tag > before {
                if tag.is_some_and(|tag| tag != value.tag) {
                    return Err(format!("the update of event {} has two tags", op.begin));
                }
                if value.report != report {
                    return Err(format!("the update of event {} let out another report", op.begin));
                }
                tag = Some(value.tag);
            }
        }
    }
    Ok(tag)
}

/// What the line must hold: finished scans, finished updates that are not spent, and unfinished updates that a finished
/// scan shows.
fn belongs(op: &Op, ops: &[Op]) -> bool {
    match &op.end {
        Some((_, Ending::Spent)) => false,
        Some(_) => true,
        None => ops.iter().any(|scan| op.shown_by(scan)),
    }
}

/// The sum of a view's tags, wide enough for tags near their limit. Views that grow have growing sums.
fn size(view: &View) -> u128 {
    view.iter().flatten().map(|shown| u128::from(shown.0)).sum()
}

/// The single line, as places in the list of operations. Scans stand by the size of their views, equal ones by their
/// ends; an update stands right after the largest scan that does not hold it, and of these by tag.
pub fn line(ops: &[Op]) -> Vec<usize> {
    let key = |&place: &usize| {
        let op = &ops[place];
        match (op.operation, op.view()) {
            (Operation::Scan, Some(view)) => (size(view), 1, op.end.as_ref().map_or(0, |end| end.0 as Tag)),
            _ => {
                let missing = ops.iter().filter(|scan| !op.held_by(scan)).filter_map(|scan| scan.view());
                (missing.map(|view| 1 + size(view)).max().unwrap_or(0), 0, op.tag.unwrap_or(0))
            }
        }
    };
    let mut line: Vec<usize> = (0..ops.len()).filter(|&place| belongs(&ops[place], ops)).collect();
    line.sort_by_key(key);
    line
}

/// The four conditions on a line of operations of n nodes.
pub fn check_line(n: usize, ops: &[Op], line: &[usize]) -> Result<(), String> {
    let begin = |place: usize| ops[place].begin;
    for (place, op) in ops.iter().enumerate() {
        let times = line.iter().filter(|&&other| other == place).count();
        let owed = usize::from(belongs(op, ops));
        if times != owed {
            return Err(format!("the operation of event {} stands {times} times in the line, not {owed}", op.begin));
        }
    }
    for (k, &place) in line.iter().enumerate() {
        let Some(view) = ops[place].view() else { continue };
        for node in 1..=n {
            let earlier = line[..k].iter().rev().map(|&other| &ops[other]);
            let last = earlier.into_iter().find(|op| op.node == node && op.operation != Operation::Scan);
            if view[node - 1] != last.and_then(Op::written) {
                let of = last.map_or("none".to_string(), |op| format!("that of event {}", op.begin));
                return Err(format!(
                    "the scan of event {} does not show node {node}'s last update before it: {of}",
                    begin(place)
                ));
            }
        }
    }
    for (k, &later) in line.iter().enumerate() {
        for &earlier in &line[..k] {
            if ops[later].ended_before(&ops[earlier]) {
                return Err(format!(
                    "the operation of event {} ended before that of event {} began and stands after it",
                    begin(later),
                    begin(earlier)
                ));
            }
        }
    }
    Ok(())
}

/// Demand 3's second half, after every event: while no message waits for a standing node, no operation is open.
pub fn check_quiet(n: usize, played: &[Played]) -> Result<(), String> {
    let mut stands = vec![true; n + 1];
    let mut open: Vec<Option<usize>> = vec![None; n + 1];
    let mut waiting = vec![vec![0usize; n + 1]; n + 1];
    for Played { number, event, outcome } in played {
        let (Some(event), Ok(accepted)) = (event, outcome) else { continue };
        let node = event.node();
        match *event {
            Event::Begin { .. } => open[node] = Some(*number),
            Event::Deliver { from, .. } => waiting[from][node] -= 1,
            Event::Stop { .. } => (),
        }
        for (to, _) in &accepted.let_out {
            waiting[node][*to] += 1;
        }
        if accepted.ending.is_some() {
            open[node] = None;
        }
        if event.stops() {
            stands[node] = false;
        }
        let quiet = (1..=n).filter(|&to| stands[to]).all(|to| (1..=n).all(|from| waiting[from][to] == 0));
        if let Some(left) = (1..=n).find(|&other| quiet && stands[other] && open[other].is_some()) {
            let begin = open[left].unwrap_or(0);
            return Err(format!("after event {number} no message waits, and the operation of event {begin} is open"));
        }
    }
    Ok(())
}

/// What a session that passes has.
pub struct Passed {
    pub operations: usize,
    pub in_line: usize,
}

/// Demand 3 of a whole session of n nodes.
pub fn check(n: usize, played: &[Played]) -> Result<Passed, String> {
    let ops = operations(played)?;
    let line = line(&ops);
    check_line(n, &ops, &line)?;
    check_quiet(n, played)?;
    Ok(Passed { operations: ops.len(), in_line: line.len() })
}
