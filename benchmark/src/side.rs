//! The two sides behind one interface: the calls of the crate `snapshot`, as numbers and lent memory.
mod plain;
mod proved;

pub use crate::plain::bytes::{Report, NO_REPORT};
pub use crate::plain::record::Operation;
pub use plain::Plain;
pub use proved::Proved;

/// What a client asks of a cluster. A cut lets out its first entries, then the node stops.
#[derive(Clone, Copy, Debug)]
pub enum Event {
    Update { node: usize, report: Report, cut: Option<usize> },
    Scan { node: usize, cut: Option<usize> },
    Deliver { from: usize, to: usize, cut: Option<usize> },
    Stop { node: usize },
}

/// The numbers of a message: kind, request, writer, tag. Its report stands beside them.
pub type Numbers = [u64; 4];

pub type View = [u8; 256];

/// The codes of an ending: spent, and the first for done and for a scan, to which the rule is added. A refusal is its
/// own code, and 0 is for all else.
const SPENT: u8 = 13;
const DONE: u8 = 100;
pub const SCAN: u8 = 110;

pub fn is_refusal(code: u8) -> bool {
    code != 0 && code != SPENT && code < DONE
}

/// The calls; each answers a code.
pub trait Side {
    fn most_faults(n: usize) -> usize;
    fn size(n: usize) -> usize;
    fn fresh(n: usize, f: usize, b: &mut [u8]) -> u8;
    fn apply(b: &mut [u8], event: &Event, view: &mut View) -> u8;
    fn read(n: usize, b: &[u8], numbers: &mut Numbers, report: &mut Report) -> u8;
    fn write(n: usize, numbers: &Numbers, report: &Report, view: &[u8], out: &mut [u8], length: &mut usize) -> u8;
    fn figures(n: usize, view: &[u8], out: &mut [u32; 4]) -> u8;
    fn page(n: usize, view: &[u8], out: &mut [u8], length: &mut usize) -> u8;
    fn node_size() -> usize;
    fn node_fresh(n: usize, f: usize, own: usize, record: &mut [u8]) -> u8;
    fn node_begin(record: &mut [u8], operation: &Operation, out: &mut [u8], length: &mut usize) -> u8;
    fn node_message(
        record: &mut [u8],
        sender: usize,
        bytes: &[u8],
        out: &mut [u8],
        length: &mut usize,
        view: &mut View,
    ) -> u8;
    fn node_frame(
        record: &mut [u8],
        sender: usize,
        frame: &[u8],
        out: &mut [u8],
        length: &mut usize,
        view: &mut View,
    ) -> u8;
    fn next(n: usize, bytes: &[u8], length: &mut usize, route: &mut u8) -> u8;
}
