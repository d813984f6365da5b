//! The desk's page of a scan's view, from document 02's words: a line for each node, and one for the house.

use crate::cluster::{demand, Refusal};
use crate::message::{Report, View, LIMIT};
use crate::record::{BAD_LENGTH, BAD_NUMBER, NODES, NOT_OF_THE_LAYOUT};
use crate::wire;
use std::fmt::Display;

pub const SHORT_BUFFER: Refusal = Refusal(15);

/// The page of the view that the bytes are, among n nodes, at the front of a buffer, and its length. A refusal writes
/// nothing.
pub fn write(n: usize, view: &[u8], out: &mut [u8]) -> Result<usize, Refusal> {
    demand(n.checked_mul(wire::ENTRY) == Some(view.len()), BAD_LENGTH)?;
    demand((1..=NODES).contains(&n), BAD_NUMBER)?;
    let view = wire::view(n, LIMIT, view).ok_or(NOT_OF_THE_LAYOUT)?;
    let page = page(&view);
    out.get_mut(..page.len()).ok_or(SHORT_BUFFER)?.copy_from_slice(page.as_bytes());
    Ok(page.len())
}

/// The page of a view.
pub fn page(view: &View) -> String {
    let nodes = view.iter().zip(1..).map(|(shown, node)| match shown {
        Some((_, report)) => line(node, counts(*report)),
        None => line(node, ["-"; 4]),
    });
    nodes.chain([line("==", figures(view))]).collect()
}

/// A line: whose it is right in 2 columns, then each of four right in 7 after one space.
fn line(name: impl Display, four: [impl Display; 4]) -> String {
    let columns = four.map(|shown| format!(" {shown:>7}")).concat();
    format!("{name:>2}{columns}\n")
}

/// The four counts of a report.
fn counts(report: Report) -> [u64; 4] {
    [48, 32, 16, 0].map(|shift| report >> shift & 0xffff)
}

/// The house figures: each count summed over the reports of the view, but of calls waiting the largest; of no report 0.
fn figures(view: &View) -> [u64; 4] {
    let each = |k: usize| view.iter().flatten().map(move |(_, report)| counts(*report)[k]);
    [each(0).sum(), each(1).sum(), each(2).max().unwrap_or(0), each(3).sum()]
}
