//! The proved code, by the crate `snapshot`.
use super::{Event, Numbers, Operation, Report, Side, View};
use snapshot::lent;

pub struct Proved;

impl Side for Proved {
    fn most_faults(n: usize) -> usize {
        lent::most_faults(n)
    }

    fn size(n: usize) -> usize {
        lent::size(n)
    }

    fn fresh(n: usize, f: usize, b: &mut [u8]) -> u8 {
        lent::fresh(n, f, b)
    }

    fn apply(b: &mut [u8], event: &Event, view: &mut View) -> u8 {
        let extent = |cut: Option<usize>| (cut.is_some(), cut.unwrap_or(0));
        match *event {
            Event::Update { node, report, cut } => {
                let (cut, m) = extent(cut);
                lent::begin_update(b, node, &report, cut, m)
            }
            Event::Scan { node, cut } => {
                let (cut, m) = extent(cut);
                lent::begin_scan(b, node, cut, m)
            }
            Event::Deliver { from, to, cut } => {
                let (cut, m) = extent(cut);
                lent::deliver(b, from, to, cut, m, view)
            }
            Event::Stop { node } => lent::stop(b, node),
        }
    }

    fn read(n: usize, b: &[u8], numbers: &mut Numbers, report: &mut Report) -> u8 {
        lent::read(n, b, numbers, report)
    }

    fn write(n: usize, numbers: &Numbers, report: &Report, view: &[u8], out: &mut [u8], length: &mut usize) -> u8 {
        lent::write(n, numbers, report, view, out, length)
    }

    fn figures(n: usize, view: &[u8], out: &mut [u32; 4]) -> u8 {
        lent::figures(n, view, out)
    }

    fn page(n: usize, view: &[u8], out: &mut [u8], length: &mut usize) -> u8 {
        lent::page(n, view, out, length)
    }

    fn node_size() -> usize {
        lent::node_size()
    }

    fn node_fresh(n: usize, f: usize, own: usize, record: &mut [u8]) -> u8 {
        lent::node_fresh(n, f, own, record)
    }

    fn node_begin(record: &mut [u8], operation: &Operation, out: &mut [u8], length: &mut usize) -> u8 {
        match operation {
            Operation::Update(report) => lent::node_begin_update(record, report, out, length),
            Operation::Scan => lent::node_begin_scan(record, out, length),
        }
    }

    fn node_message(
        record: &mut [u8],
        sender: usize,
        bytes: &[u8],
        out: &mut [u8],
        length: &mut usize,
        view: &mut View,
    ) -> u8 {
        lent::node_message(record, sender, bytes, out, length, view)
    }

    fn node_frame(
        record: &mut [u8],
        sender: usize,
        frame: &[u8],
        out: &mut [u8],
        length: &mut usize,
        view: &mut View,
    ) -> u8 {
        lent::node_frame(record, sender, frame, out, length, view)
    }

    fn next(n: usize, bytes: &[u8], length: &mut usize, route: &mut u8) -> u8 {
        lent::next(n, bytes, length, route)
    }
}
