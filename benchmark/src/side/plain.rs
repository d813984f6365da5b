//! The plain code.
use super::{Event, Numbers, Operation, Report, Side, View, DONE, NO_REPORT, SCAN, SPENT};
use crate::plain::figures::figures;
use crate::plain::message::{read, write, Message};
use crate::plain::page::{page, page_by_write};
use crate::plain::step::{Ending, Rule};
use crate::plain::{cluster, most_faults, node, record, Refusal};

pub struct Plain;

fn code(answer: Result<Ending, Refusal>) -> u8 {
    let rule = |r| match r {
        Rule::Direct(round) => round as u8,
        Rule::Borrowed => 0,
    };
    match answer {
        Err(refusal) => refusal,
        Ok(Ending::None) => 0,
        Ok(Ending::Spent) => SPENT,
        Ok(Ending::Done(r)) => DONE + rule(r),
        Ok(Ending::Scan(r)) => SCAN + rule(r),
    }
}

/// The code of a call that also answers how many bytes it sends.
fn sent(answer: Result<(Ending, usize), Refusal>, length: &mut usize) -> u8 {
    code(answer.map(|(ending, k)| {
        *length = k;
        ending
    }))
}

/// The code of a call whose result goes to a place that is lent.
fn put<T>(answer: Result<T, Refusal>, place: &mut T) -> u8 {
    match answer {
        Ok(result) => {
            *place = result;
            0
        }
        Err(refusal) => refusal,
    }
}

impl Plain {
    /// The page as most would write it, by `write!`; that of [`Side`] has its digits by hand.
    #[inline(never)]
    pub fn page_by_write(n: usize, view: &[u8], out: &mut [u8], length: &mut usize) -> u8 {
        put(page_by_write(n, view, out), length)
    }
}

// Called and not inlined, as a static library's functions are.
impl Side for Plain {
    #[inline(never)]
    fn most_faults(n: usize) -> usize {
        most_faults(n)
    }

    #[inline(never)]
    fn size(n: usize) -> usize {
        cluster::size(n)
    }

    #[inline(never)]
    fn fresh(n: usize, f: usize, b: &mut [u8]) -> u8 {
        code(cluster::fresh(n, f, b))
    }

    #[inline(never)]
    fn apply(b: &mut [u8], event: &Event, view: &mut View) -> u8 {
        code(match *event {
            Event::Update { node, report, cut } => cluster::begin(b, node, Operation::Update(report), cut),
            Event::Scan { node, cut } => cluster::begin(b, node, Operation::Scan, cut),
            Event::Deliver { from, to, cut } => cluster::deliver(b, from, to, cut, view),
            Event::Stop { node } => cluster::stop(b, node),
        })
    }

    #[inline(never)]
    fn read(n: usize, b: &[u8], numbers: &mut Numbers, report: &mut Report) -> u8 {
        let m = match read(n, b) {
            Ok(m) => m,
            Err(refusal) => return refusal,
        };
        (*numbers, *report) = match m {
            Message::Read { request } => ([1, request, 0, 0], NO_REPORT),
            Message::ReadAnswer { request, tag } => ([2, request, 0, tag], NO_REPORT),
            Message::Write { request, tag } => ([3, request, 0, tag], NO_REPORT),
            Message::WriteAnswer { request, tag } => ([4, request, 0, tag], NO_REPORT),
            Message::Echo { tag } => ([5, 0, 0, tag], NO_REPORT),
            Message::Value { tag, writer, report } => ([6, 0, u64::from(writer), tag], report),
            Message::Good { tag } => ([7, 0, 0, tag], NO_REPORT),
        };
        0
    }

    #[inline(never)]
    fn write(n: usize, numbers: &Numbers, report: &Report, view: &[u8], out: &mut [u8], length: &mut usize) -> u8 {
        let [kind, request, writer, tag] = *numbers;
        let m = match kind {
            1 => Message::Read { request },
            2 => Message::ReadAnswer { request, tag },
            3 => Message::Write { request, tag },
            4 => Message::WriteAnswer { request, tag },
            5 => Message::Echo { tag },
            // A writer past 255 is none of 1 to n, and 0 is none either.
            6 => Message::Value { tag, writer: writer.try_into().unwrap_or(0), report: *report },
            7 => Message::Good { tag },
            _ => return if (1..=16).contains(&n) { 7 } else { 1 },
        };
        put(write(n, &m, view, out), length)
    }

    #[inline(never)]
    fn figures(n: usize, view: &[u8], out: &mut [u32; 4]) -> u8 {
        put(figures(n, view), out)
    }

    #[inline(never)]
    fn page(n: usize, view: &[u8], out: &mut [u8], length: &mut usize) -> u8 {
        put(page(n, view, out), length)
    }

    #[inline(never)]
    fn node_size() -> usize {
        record::SIZE
    }

    #[inline(never)]
    fn node_fresh(n: usize, f: usize, own: usize, record: &mut [u8]) -> u8 {
        code(node::fresh(n, f, own, record))
    }

    #[inline(never)]
    fn node_begin(record: &mut [u8], operation: &Operation, out: &mut [u8], length: &mut usize) -> u8 {
        sent(node::begin(record, *operation, out).map(|k| (Ending::None, k)), length)
    }

    #[inline(never)]
    fn node_message(
        record: &mut [u8],
        sender: usize,
        bytes: &[u8],
        out: &mut [u8],
        length: &mut usize,
        view: &mut View,
    ) -> u8 {
        sent(node::message(record, sender, bytes, out, view), length)
    }

    #[inline(never)]
    fn node_frame(
        record: &mut [u8],
        sender: usize,
        frame: &[u8],
        out: &mut [u8],
        length: &mut usize,
        view: &mut View,
    ) -> u8 {
        sent(node::frame(record, sender, frame, out, view), length)
    }

    #[inline(never)]
    fn next(n: usize, bytes: &[u8], length: &mut usize, route: &mut u8) -> u8 {
        match node::next(n, bytes) {
            Ok((k, is_answer)) => {
                *length = k;
                *route = u8::from(is_answer);
                0
            }
            Err(refusal) => refusal,
        }
    }
}
