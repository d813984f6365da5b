//! One node on its record in lent bytes. The messages that it sends go to the front of an output buffer, each once.
use super::bytes::VIEW;
use super::message::{read, read_prefix, Message};
use super::record::{Operation, Record, Wait, LAST, SIZE};
use super::step::{Ending, Step};
use super::{is_size, Refusal};

/// The least length of an output buffer, and of one for a frame.
const OUTPUT: usize = 512;
const FRAME_OUTPUT: usize = 8192;

/// The longest frame.
const FRAME: usize = 1500;

/// Makes the lent bytes the record of a node that has done nothing, or refuses with 1, 12.
pub fn fresh(n: usize, f: usize, own: usize, b: &mut [u8]) -> Result<Ending, Refusal> {
    if !is_size(n, f) || !(1..=n).contains(&own) {
        return Err(1);
    }
    let b: &mut [u8; SIZE] = b.try_into().map_err(|_| 12)?;
    b.fill(0);
    Record(b).make_blank(n, f, own);
    Ok(Ending::None)
}

/// A usable record and its n, or 12, 2.
fn usable<'a>(b: &'a mut [u8], out: &[u8], least: usize) -> Result<(&'a mut [u8; SIZE], usize), Refusal> {
    let b: &mut [u8; SIZE] = b.try_into().map_err(|_| 12)?;
    if out.len() < least {
        return Err(12);
    }
    let (n, f, own) = (Record(&*b).n(), Record(&*b).f(), Record(&*b).own());
    if is_size(n, f) && (1..=n).contains(&own) && Record(&*b).is_sound(n, f, own) {
        Ok((b, n))
    } else {
        Err(2)
    }
}

/// Writes what the step sends, and answers how many bytes that takes.
fn write_all(n: usize, step: &Step<&mut [u8; SIZE]>, out: &mut [u8]) -> usize {
    let mut at = 0;
    for m in step.messages() {
        m.encode(&step.view[..16 * n], &mut out[at..]);
        at += m.size(n);
    }
    at
}

/// Begins an operation: the length of the messages in `out`, or 12, 2, 5, 6.
pub fn begin(b: &mut [u8], operation: Operation, out: &mut [u8]) -> Result<usize, Refusal> {
    let (b, n) = usable(b, out, OUTPUT)?;
    if !matches!(Record(&*b).wait(), Some(Wait::Idle)) {
        return Err(5);
    }
    if Record(&*b).is_full() {
        return Err(6);
    }
    let mut step = Step::new(b, Wait::Idle);
    step.begin(operation);
    Ok(write_all(n, &step, out))
}

/// Handles a message: the ending and the length of the messages in `out`, or 12, 2, 3, 7, 9. The view of a scan that
/// ends goes to `view`.
pub fn message(
    b: &mut [u8],
    sender: usize,
    bytes: &[u8],
    out: &mut [u8],
    view: &mut [u8; VIEW],
) -> Result<(Ending, usize), Refusal> {
    let (b, n) = usable(b, out, OUTPUT)?;
    if !(1..=n).contains(&sender) {
        return Err(3);
    }
    let m = read(n, bytes)?;
    if let Message::Value { tag, writer, .. } = m {
        if Record(&*b).is_stale(sender, writer as usize, tag) {
            return Err(9);
        }
    }
    Ok(take(b, n, sender, m, bytes, out, view))
}

/// Handles a message that can come, whose bytes these are.
fn take(
    b: &mut [u8; SIZE],
    n: usize,
    sender: usize,
    m: Message,
    bytes: &[u8],
    out: &mut [u8],
    view: &mut [u8; VIEW],
) -> (Ending, usize) {
    let wait = Record(&*b).wait().unwrap_or(Wait::Idle);
    let mut step = Step::new(b, wait);
    step.message(sender, m, bytes.get(18..).unwrap_or(&[]));
    if let Ending::Scan(_) = step.ending {
        *view = step.view;
    }
    let length = write_all(n, &step, out);
    (step.ending, length)
}

/// Handles a frame, the messages of one sender one after the other, or refuses with 12, 2, 3, 14, 7, 9; the rest is as
/// for a message. It is read and judged as a whole before the first message is handled.
pub fn frame(
    b: &mut [u8],
    sender: usize,
    frame: &[u8],
    out: &mut [u8],
    view: &mut [u8; VIEW],
) -> Result<(Ending, usize), Refusal> {
    let (b, n) = usable(b, out, FRAME_OUTPUT)?;
    if !(1..=n).contains(&sender) {
        return Err(3);
    }
    if !(1..=FRAME).contains(&frame.len()) {
        return Err(14);
    }
    let (mut arrivals, mut stale) = (Arrivals::new(b, sender), false);
    let mut at = 0;
    while at < frame.len() {
        let (m, size) = read_prefix(n, &frame[at..])?;
        stale |= arrivals.refuse(&m);
        at += size;
    }
    if stale {
        return Err(9);
    }
    let (mut ending, mut length, mut at) = (Ending::None, 0, 0);
    while at < frame.len() {
        let (m, size) = read_prefix(n, &frame[at..])?;
        let (ended, more) = take(b, n, sender, m, &frame[at..at + size], &mut out[length..], view);
        if ended != Ending::None {
            ending = ended;
        }
        (length, at) = (length + more, at + size);
    }
    Ok((ending, length))
}

/// What refusal 9 looks at, of one sender, as the messages of a frame change it in turn.
struct Arrivals {
    maxtag: u64,
    heard: [u64; 16],
    last: [u64; 16],
}

impl Arrivals {
    fn new(b: &[u8; SIZE], sender: usize) -> Arrivals {
        let record = Record(b);
        Arrivals {
            maxtag: record.maxtag(),
            heard: std::array::from_fn(|i| record.heard(sender, i + 1)),
            last: std::array::from_fn(|i| record.tag(LAST, i + 1)),
        }
    }

    /// Whether the next message cannot come. One that can is counted in.
    fn refuse(&mut self, m: &Message) -> bool {
        match *m {
            Message::Write { tag, .. } | Message::Echo { tag } => self.maxtag = tag.max(self.maxtag),
            Message::Value { tag, writer, .. } => {
                let (heard, last) = (&mut self.heard[writer as usize - 1], &mut self.last[writer as usize - 1]);
                if tag < *heard || *last < tag && self.maxtag < *last {
                    return true;
                }
                (*heard, *last) = (tag, tag.max(*last));
            }
            _ => (),
        }
        false
    }
}

/// The message at the front of an output: its length, and whether it goes to the sender of the message handled and not
/// to all; or 1, 7.
pub fn next(n: usize, b: &[u8]) -> Result<(usize, bool), Refusal> {
    read_prefix(n, b).map(|(m, size)| (size, m.is_answer()))
}
