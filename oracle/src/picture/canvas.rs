//! The shapes that a picture is made of, as SVG that needs nothing beside itself. Lengths are in pixels.

use super::flight::KINDS;

pub type Point = (f64, f64);

pub const INK: &str = "#1f2937";
pub const FAINT: &str = "#5f6b7a";

/// One for each kind of message.
const STROKES: [&str; KINDS.len()] = ["#55637a", "#93a1b5", "#1667b0", "#5fa5dc", "#bf8300", "#238247", "#c81e3a"];

/// The colours of an operation.
pub struct Colours {
    pub fill: &'static str,
    pub edge: &'static str,
}

pub const UPDATE: Colours = Colours { fill: "#fde4c3", edge: "#b45309" };
pub const SCAN: Colours = Colours { fill: "#e4ddfb", edge: "#6d3fc4" };

/// A drawing so far. What comes later covers what came before.
pub struct Canvas {
    svg: String,
}

impl Canvas {
    /// A light page, with an arrowhead and a fading stroke for each kind of message.
    pub fn new(width: f64, height: f64, title: &str) -> Canvas {
        let mut canvas = Canvas { svg: String::new() };
        canvas.put(&format!(
            "<svg xmlns='http://www.w3.org/2000/svg' width='{width:.0}' height='{height:.0}' \
             viewBox='0 0 {width:.0} {height:.0}' role='img' fill='{INK}' font-size='14' \
             font-family='system-ui, \"Segoe UI\", Helvetica, Arial, \"DejaVu Sans\", sans-serif'>\n\
             <title>{title}</title>\n<defs>"
        ));
        for (kind, colour) in STROKES.iter().enumerate() {
            canvas.put(&format!(
                "<marker id='head{kind}' viewBox='0 0 9 8' refX='8.5' refY='4' markerWidth='9' markerHeight='8' \
                 markerUnits='userSpaceOnUse' orient='auto'><path d='M0 .8L9 4L0 7.2Z' fill='{colour}'/></marker>\n\
                 <linearGradient id='fade{kind}'><stop stop-color='{colour}'/>\
                 <stop offset='1' stop-color='{colour}' stop-opacity='.2'/></linearGradient>"
            ));
        }
        let (right, bottom) = (width - 1.0, height - 1.0);
        canvas.put("</defs>");
        canvas.put(&format!(
            "<rect x='.5' y='.5' width='{right:.0}' height='{bottom:.0}' rx='10' fill='#fdfdfc' stroke='#d1d5db'/>"
        ));
        canvas
    }

    pub fn finish(mut self) -> String {
        self.put("</svg>");
        self.svg
    }

    fn put(&mut self, piece: &str) {
        self.svg.push_str(piece);
        self.svg.push('\n');
    }

    /// Words on a line; `look` has further attributes.
    pub fn text(&mut self, (x, y): Point, look: &str, words: &str) {
        self.put(&format!("<text x='{x:.1}' y='{y:.1}' {look}>{words}</text>"));
    }

    /// A stroke along a path; `look` has further attributes.
    pub fn stroke(&mut self, path: &str, colour: &str, look: &str) {
        self.put(&format!("<path d='{path}' fill='none' stroke='{colour}' {look}/>"));
    }

    /// A message on its way. `told` is shown where the arrow is pointed at.
    pub fn arrow(&mut self, kind: usize, (x0, y0): Point, (x1, y1): Point, told: &str) {
        let (colour, thick) = (STROKES[kind], thickness(kind));
        self.put(&format!(
            "<path d='M{x0:.1} {y0:.1}L{x1:.1} {y1:.1}' stroke='{colour}' stroke-width='{thick}' \
             marker-end='url(#head{kind})'><title>{told}</title></path>"
        ));
    }

    /// A message that gets nowhere. Its stroke fades from left to right, so it must not be upright or level.
    pub fn stub(&mut self, kind: usize, (x0, y0): Point, (x1, y1): Point) {
        let look = format!("stroke-width='{}' stroke-dasharray='4 2'", thickness(kind));
        self.stroke(&format!("M{x0:.1} {y0:.1}L{x1:.1} {y1:.1}"), &format!("url(#fade{kind})"), &look);
    }

    /// A message to the node itself.
    pub fn dot(&mut self, (x, y): Point, kind: usize) {
        let colour = STROKES[kind];
        self.put(&format!("<circle cx='{x:.1}' cy='{y:.1}' r='3.2' fill='{colour}' stroke='#fff' stroke-width='.8'/>"));
    }

    /// The end of a node.
    pub fn cross(&mut self, (x, y): Point) {
        let (left, top) = (x - 7.0, y - 7.0);
        self.stroke(&format!("M{left:.1} {top:.1}l14 14m0 -14l-14 14"), INK, "stroke-width='3' stroke-linecap='round'");
    }

    /// The moment of an operation.
    pub fn diamond(&mut self, (x, y): Point, colours: &Colours) {
        let (top, edge) = (y - 7.0, colours.edge);
        self.put(&format!(
            "<path d='M{x:.1} {top:.1}l7 7l-7 7l-7 -7Z' fill='{edge}' stroke='#fff' stroke-width='1.5'/>"
        ));
    }

    /// An area with round corners. What lies under it shines through a little.
    pub fn area(&mut self, (x, y): Point, (width, height): Point, fill: &str, edge: &str) {
        self.put(&format!(
            "<rect x='{x:.1}' y='{y:.1}' width='{width:.1}' height='{height:.1}' rx='4' \
             fill='{fill}' fill-opacity='.86' stroke='{edge}'/>"
        ));
    }

    /// An operation in time. Without an end it is open to the right.
    pub fn bar(&mut self, (x, y): Point, (width, height): Point, colours: &Colours, ended: bool) {
        let Colours { fill, edge } = colours;
        if ended {
            return self.area((x, y), (width, height), fill, edge);
        }
        self.area((x, y), (width, height), fill, "none");
        let (right, bottom) = (x + width, y + height);
        self.stroke(&format!("M{right:.1} {y:.1}H{x:.1}V{bottom:.1}H{right:.1}"), edge, "");
    }
}

/// Values are what it is all about.
fn thickness(kind: usize) -> f64 {
    if KINDS[kind] == "value" {
        2.2
    } else {
        1.3
    }
}
