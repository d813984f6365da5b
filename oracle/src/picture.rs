//! A picture of one session: nodes as lines, messages as arrows, operations as bars, the single order under them.
//!
//! Time runs to the right, one column for each event. A refused event has its column and nothing in it.

mod canvas;
mod flight;
mod scene;

use crate::message::Report;
use crate::node::Operation;
use crate::order::Op;
use crate::session::Played;
use canvas::{Canvas, Colours, FAINT, INK, SCAN, UPDATE};
use flight::{Flight, KINDS};
use scene::{ABOVE, BELOW, BOX_WIDTH, LEFT, TEXT_PITCH};

pub use scene::Scene;

const BOLD: &str = "font-weight='700'";

/// The picture of a session of n nodes. It is an error if its operations have no single order.
pub fn svg(n: usize, played: &[Played]) -> Result<String, String> {
    let scene = Scene::new(n, played)?;
    let title = "One run, and the single order of its operations";
    let mut canvas = Canvas::new(scene.width(), scene.height(), title);
    canvas.text((24.0, 36.0), "font-size='19' font-weight='700'", title);
    legend(&mut canvas);
    axis(&mut canvas, &scene);
    order(&mut canvas, &scene);
    arrows(&mut canvas, &scene);
    lanes(&mut canvas, &scene);
    bars(&mut canvas, &scene);
    stops(&mut canvas, &scene);
    own_messages(&mut canvas, &scene);
    moments(&mut canvas, &scene);
    Ok(canvas.finish())
}

fn colours(op: &Op) -> &'static Colours {
    match op.operation {
        Operation::Update(_) => &UPDATE,
        Operation::Scan => &SCAN,
    }
}

/// The four counts of a report.
fn counts(report: Report) -> String {
    [48, 32, 16, 0].map(|shift| (report >> shift & 0xffff).to_string()).join(" ")
}

fn bold(words: &str) -> String {
    format!("<tspan {BOLD}>{words}</tspan>")
}

/// Two rows: the kinds of messages, and the other signs.
fn legend(canvas: &mut Canvas) {
    let room = |name: &str| 60.0 + 7.8 * name.len() as f64;
    let mut x = 24.0;
    for (kind, name) in KINDS.iter().enumerate() {
        canvas.arrow(kind, (x, 62.0), (x + 32.0, 62.0), name);
        canvas.text((x + 39.0, 67.0), "", name);
        x += room(name);
    }
    type Sign = fn(&mut Canvas, f64, f64);
    let signs: [(&str, Sign); 6] = [
        ("update", |canvas, x, y| canvas.bar((x, y - 7.0), (32.0, 14.0), &UPDATE, true)),
        ("scan", |canvas, x, y| canvas.bar((x, y - 7.0), (32.0, 14.0), &SCAN, true)),
        ("message to itself", |canvas, x, y| canvas.dot((x + 20.0, y), 0)),
        ("never handed over", |canvas, x, y| canvas.stub(0, (x + 8.0, y - 9.0), (x + 30.0, y + 9.0))),
        ("the node stops", |canvas, x, y| canvas.cross((x + 20.0, y))),
        ("moment in the single order", |canvas, x, y| canvas.diamond((x + 20.0, y), &UPDATE)),
    ];
    x = 24.0;
    for (name, sign) in signs {
        sign(canvas, x, 90.0);
        canvas.text((x + 39.0, 95.0), "", name);
        x += room(name);
    }
}

/// The numbers of some events, and a faint line down from each.
fn axis(canvas: &mut Canvas, scene: &Scene) {
    let look = format!("font-size='12' fill='{FAINT}' text-anchor='middle'");
    canvas.text((LEFT - 40.0, 128.0), &look, "event");
    let every = if scene.step < 24.0 { 5 } else { 1 };
    for event in (1..scene.last).filter(|&event| event == 1 || event % every == 0) {
        let (x, bottom) = (scene.x(event as f64), scene.y(scene.n) + BELOW);
        canvas.stroke(&format!("M{x:.1} 135V{bottom:.1}"), "#e5e7eb", "");
        canvas.text((x, 128.0), &look, &event.to_string());
    }
}

/// Messages between nodes. What was never handed over starts and gets nowhere.
fn arrows(canvas: &mut Canvas, scene: &Scene) {
    // Strokes that get nowhere fan out: the event that let out the last one, and how many it had let out before.
    let mut fan = (0, 0);
    for Flight { from, to, kind, start, end } in scene.flights.iter().filter(|flight| flight.from != flight.to) {
        let (leave, reach, down) = if from < to { (BELOW, -ABOVE, 1.0) } else { (-ABOVE, BELOW, -1.0) };
        let (x, y) = (scene.x(*start as f64), scene.y(*from) + leave);
        if let Some(end) = end {
            let told = format!("{}: from {from} at event {start} to {to} at event {end}", KINDS[*kind]);
            canvas.arrow(*kind, (x, y), (scene.x(*end as f64), scene.y(*to) + reach), &told);
        } else {
            fan = (*start, if fan.0 == *start { fan.1 + 1 } else { 0 });
            canvas.stub(*kind, (x, y), (x + 10.0 + 9.0 * f64::from(fan.1), y + down * 34.0));
        }
    }
}

fn lanes(canvas: &mut Canvas, scene: &Scene) {
    for node in 1..=scene.n {
        let (left, right, y) = (LEFT - 4.0, scene.right(node), scene.y(node));
        canvas.area((left, y - ABOVE), (right - left, ABOVE + BELOW), "#eef0f3", "none");
        canvas.stroke(&format!("M{left:.1} {y:.1}H{right:.1}"), FAINT, "");
        canvas.text((24.0, y - 2.0), BOLD, &format!("node {node}"));
    }
}

/// The operations, each with its parts and its name and, where there is room, its report or view.
fn bars(canvas: &mut Canvas, scene: &Scene) {
    for (op, name) in scene.ops.iter().zip(&scene.names) {
        let (y, margin, edge) = (scene.y(op.node), 0.35 * scene.step, colours(op).edge);
        let left = scene.x(op.begin as f64) - margin;
        let right = op.end.as_ref().map_or(scene.right(op.node), |end| scene.x(end.0 as f64) + margin);
        canvas.bar((left, y - ABOVE), (right - left, ABOVE + BELOW), colours(op), op.end.is_some());
        canvas.stroke(&format!("M{left:.1} {y:.1}H{right:.1}"), edge, "stroke-opacity='.55'");
        let more = match op.operation {
            Operation::Update(report) => format!(" writes {}", counts(report)),
            Operation::Scan if op.end.is_none() => String::new(),
            Operation::Scan => {
                let shown = scene.shown(op).into_iter().map(|place| place.map_or("–", |(name, _)| name));
                format!(" shows {}", shown.collect::<Vec<_>>().join(", "))
            }
        };
        let fits = 26.0 + 7.4 * more.chars().count() as f64 <= right - left;
        canvas.text((left + 6.0, y - 7.0), "", &(bold(name) + if fits { &more } else { "" }));
        let mut room_ends = right;
        for (start, part) in scene.parts(op).into_iter().rev() {
            let x = scene.x(start as f64);
            if start > op.begin {
                canvas.stroke(&format!("M{x:.1} {y:.1}v{BELOW:.1}"), edge, "");
            }
            if 6.6 * part.len() as f64 + 6.0 <= room_ends - x {
                canvas.text((x + 4.0, y + 14.5), &format!("font-size='11.5' fill='{edge}'"), &part);
            }
            room_ends = x;
        }
    }
}

fn stops(canvas: &mut Canvas, scene: &Scene) {
    for node in (1..=scene.n).filter(|&node| scene.stops[node].is_some()) {
        canvas.cross((scene.right(node), scene.y(node)));
    }
}

/// Messages of a node to itself, where they were handed over.
fn own_messages(canvas: &mut Canvas, scene: &Scene) {
    for flight in scene.flights.iter().filter(|flight| flight.from == flight.to) {
        if let Some(end) = flight.end {
            canvas.dot((scene.x(end as f64), scene.y(flight.to)), flight.kind);
        }
    }
}

/// The moment of each operation of the order: inside its bar or, if its node stopped, perhaps after it.
fn moments(canvas: &mut Canvas, scene: &Scene) {
    for (&place, &moment) in scene.line.iter().zip(&scene.moments) {
        let op = &scene.ops[place];
        let (x, y, right) = (scene.x(moment), scene.y(op.node), scene.right(op.node));
        if x > right {
            canvas.stroke(&format!("M{:.1} {y:.1}H{x:.1}", right + 12.0), colours(op).edge, "stroke-dasharray='2 4'");
        }
        canvas.diamond((x, y), colours(op));
    }
}

/// The boxes of the order, each with a line from its moment.
fn order(canvas: &mut Canvas, scene: &Scene) {
    let (top, height, boxes) = (scene.row(), scene.box_height(), scene.boxes());
    let middle = top + height / 2.0;
    canvas.text((24.0, middle - 4.0), BOLD, "single");
    canvas.text((24.0, middle + 13.0), BOLD, "order");
    for pair in boxes.windows(2) {
        let (from, to) = (pair[0] + BOX_WIDTH / 2.0 + 4.0, pair[1] - BOX_WIDTH / 2.0 - 5.0);
        canvas.stroke(&format!("M{from:.1} {middle:.1}H{to:.1}m-7 -4.5l7 4.5l-7 4.5"), INK, "stroke-width='1.6'");
    }
    for ((&place, &moment), x) in scene.line.iter().zip(&scene.moments).zip(boxes) {
        let op = &scene.ops[place];
        let (from, y, bend) = (scene.x(moment), scene.y(op.node), scene.y(scene.n) + 30.0);
        let path = format!("M{from:.1} {y:.1}V{bend:.1}C{from:.1} {top:.1} {x:.1} {bend:.1} {x:.1} {top:.1}");
        canvas.stroke(&path, colours(op).edge, "stroke-dasharray='2 4'");
        let left = x - BOX_WIDTH / 2.0;
        canvas.area((left, top), (BOX_WIDTH, height), colours(op).fill, colours(op).edge);
        let verb = if op.operation == Operation::Scan { "shows" } else { "writes" };
        let head = format!("{} at node {} {verb}", bold(&scene.names[place]), op.node);
        canvas.text((left + 12.0, top + 4.0 + TEXT_PITCH), "", &head);
        for (k, words) in (2..).zip(contents(scene, op)) {
            let look = if words.chars().count() > 24 { "font-size='11'" } else { "" };
            canvas.text((left + 12.0, top + 4.0 + TEXT_PITCH * f64::from(k)), look, &words);
        }
    }
}

/// The lines of a box: what an update writes, or what a scan shows of each node.
fn contents(scene: &Scene, op: &Op) -> Vec<String> {
    match op.operation {
        Operation::Update(report) if op.end.is_none() => vec![counts(report), "and never finishes".to_string()],
        Operation::Update(report) => vec![counts(report)],
        Operation::Scan => {
            let line = |(node, place): (usize, Option<(&str, Report)>)| match place {
                Some((update, report)) => format!("{node}: {} ({update})", counts(report)),
                None => format!("{node}: –"),
            };
            (1..).zip(scene.shown(op)).map(line).collect()
        }
    }
}
