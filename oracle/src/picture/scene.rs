//! What a picture shows, and where it stands. Lengths are in pixels.

use super::flight::{flights, Flight, KINDS};
use crate::message::{NodeId, Report, Tag};
use crate::node::Operation;
use crate::order::{self, Op};
use crate::session::Played;
use std::iter;

const LEAST_WIDTH: f64 = 1200.0;
pub const LEFT: f64 = 84.0;
const RIGHT: f64 = 26.0;
const FIRST_LANE: f64 = 174.0;
const LANE_PITCH: f64 = 140.0;
/// A lane, the broad line of a node, reaches this far above and below the thin line in it.
pub const ABOVE: f64 = 22.0;
pub const BELOW: f64 = 19.0;
pub const BOX_WIDTH: f64 = 200.0;
pub const BOX_PITCH: f64 = BOX_WIDTH + 40.0;
pub const TEXT_PITCH: f64 = 18.0;

pub struct Scene {
    pub n: usize,
    pub ops: Vec<Op>,
    /// The names of the operations.
    pub names: Vec<String>,
    /// The single order, as places in the list of operations, and the moment of each.
    pub line: Vec<usize>,
    pub moments: Vec<f64>,
    pub flights: Vec<Flight>,
    /// One more than the number of the last event.
    pub last: usize,
    /// The event with which a node stopped. Index 0 is unused.
    pub stops: Vec<Option<usize>>,
    /// The width of an event's column.
    pub step: f64,
}

impl Scene {
    /// A session of n nodes. It is an error if its operations have no single order.
    pub fn new(n: usize, played: &[Played]) -> Result<Scene, String> {
        if n == 0 {
            return Err("there is no event to draw".to_string());
        }
        order::check(n, played)?;
        let ops = order::operations(played)?;
        let line = order::line(&ops);
        let last = played.len() + 1;
        let mut stops = vec![None; n + 1];
        for played in played.iter().filter(|played| played.outcome.is_ok()) {
            if let Some(event) = played.event.filter(|event| event.stops()) {
                stops[event.node()] = Some(played.number);
            }
        }
        let (names, moments, flights) = (names(&ops), moments(&ops, &line, last), flights(n, played));
        let step = ((LEAST_WIDTH - LEFT - RIGHT) / last as f64).clamp(12.0, 40.0);
        Ok(Scene { n, ops, names, line, moments, flights, last, stops, step })
    }

    pub fn width(&self) -> f64 {
        let (lanes, boxes) = (self.step * self.last as f64, BOX_PITCH * self.line.len() as f64);
        LEAST_WIDTH.max(LEFT + lanes.max(boxes) + RIGHT)
    }

    pub fn height(&self) -> f64 {
        self.row() + self.box_height() + 26.0
    }

    /// The middle of an event's column.
    pub fn x(&self, event: f64) -> f64 {
        LEFT + self.step * (event - 0.5)
    }

    /// The thin line of a node.
    pub fn y(&self, node: NodeId) -> f64 {
        FIRST_LANE + LANE_PITCH * (node - 1) as f64
    }

    /// Where a node's lane ends: after the event with which it stopped, or after all.
    pub fn right(&self, node: NodeId) -> f64 {
        self.x(self.stops[node].map_or(self.last as f64, |stop| stop as f64 + 0.7))
    }

    /// The top of the row of boxes.
    pub fn row(&self) -> f64 {
        self.y(self.n) + 90.0
    }

    pub fn box_height(&self) -> f64 {
        TEXT_PITCH * (1 + self.n.max(2)) as f64 + 14.0
    }

    /// The middles of the boxes: each as near to its moment as its neighbours and the edges allow.
    pub fn boxes(&self) -> Vec<f64> {
        let mut middles: Vec<f64> = self.moments.iter().map(|&moment| self.x(moment)).collect();
        let mut least = LEFT + BOX_WIDTH / 2.0;
        for x in &mut middles {
            *x = x.max(least);
            least = *x + BOX_PITCH;
        }
        let mut most = self.width() - RIGHT - BOX_WIDTH / 2.0;
        for x in middles.iter_mut().rev() {
            *x = x.min(most);
            most = *x - BOX_PITCH;
        }
        middles
    }

    /// The parts of an operation, each with the event at which it starts: the read, and then rounds, which start with a
    /// write. An update has a round 0 before those that a scan has too.
    pub fn parts(&self, op: &Op) -> Vec<(usize, String)> {
        let end = op.end.as_ref().map_or(self.last, |end| end.0);
        let writes = self.flights.iter().filter(|flight| flight.from == op.node && KINDS[flight.kind] == "write");
        let mut starts: Vec<usize> = writes.map(|write| write.start).collect();
        starts.retain(|start| (op.begin..=end).contains(start));
        // A write goes to all nodes.
        starts.dedup();
        let rounds = starts.into_iter().zip(usize::from(op.operation == Operation::Scan)..);
        let rounds = rounds.map(|(start, round)| (start, format!("round {round}")));
        iter::once((op.begin, "read".to_string())).chain(rounds).collect()
    }

    /// For each node the name and the report of the update that a finished scan shows.
    pub fn shown(&self, scan: &Op) -> Vec<Option<(&str, Report)>> {
        let name = |node: NodeId, tag: Tag| {
            let update = self.ops.iter().position(|op| op.node == node && op.tag == Some(tag));
            update.map_or("?", |place| &self.names[place])
        };
        let places = (1..).zip(scan.view().into_iter().flatten());
        places.map(|(node, place)| place.map(|(tag, report)| (name(node, tag), report))).collect()
    }
}

/// u1, u2, .. and s1, s2, .. in the order of the begins.
fn names(ops: &[Op]) -> Vec<String> {
    let (mut updates, mut scans) = (0, 0);
    let name = |op: &Op| {
        let (letter, count) = if op.operation == Operation::Scan { ('s', &mut scans) } else { ('u', &mut updates) };
        *count += 1;
        format!("{letter}{count}")
    };
    ops.iter().map(name).collect()
}

/// A moment for each operation of the line, between its begin and its end and later than the one before. There are
/// such moments because no operation of the line ended before an earlier one began. An unfinished one ends with `last`
/// here, even if its node stopped: what it sent may arrive later.
fn moments(ops: &[Op], line: &[usize], last: usize) -> Vec<f64> {
    let end = |&place: &usize| ops[place].end.as_ref().map_or(last, |end| end.0);
    let moment = |k: usize| {
        let begin = line[..=k].iter().map(|&place| ops[place].begin).max().unwrap_or(0) as f64;
        let end = line[k..].iter().map(end).min().unwrap_or(last) as f64;
        begin + (end - begin) * (k + 1) as f64 / (line.len() + 1) as f64
    };
    (0..line.len()).map(moment).collect()
}
