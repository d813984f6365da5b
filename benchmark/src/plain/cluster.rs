//! A cluster in one lent buffer: byte 0 states n and byte 1 f, then a block for each node with its record and its
//! incoming channels.
use super::bytes::VIEW;
use super::message::{read_prefix, Message};
use super::record::{Operation, Record, Wait, SIZE as RECORD};
use super::step::{Ending, Step};
use super::{is_size, Refusal};

const HEAD: usize = 2;
pub const SLOT: usize = 274;
pub const CAPACITY: usize = 16;
const CHANNEL: usize = 2 + SLOT * CAPACITY;
const BLOCK: usize = 1 + RECORD + 16 * CHANNEL;

/// The bytes to lend for a cluster of n nodes; 0 where there may be none.
pub fn size(n: usize) -> usize {
    if (1..=16).contains(&n) {
        HEAD + BLOCK * n
    } else {
        0
    }
}

/// Where the block of node c is: whether it has stopped, its record, its channels.
pub fn block_at(c: usize) -> usize {
    HEAD + BLOCK * (c - 1)
}

/// Where in a block the channel from node a is: how many messages wait, the slot of the oldest, sixteen slots.
pub fn channel_at(a: usize) -> usize {
    1 + RECORD + CHANNEL * (a - 1)
}

fn block(b: &[u8], c: usize) -> &[u8; BLOCK] {
    let at = block_at(c);
    b[at..at + BLOCK].try_into().unwrap()
}

fn block_mut(b: &mut [u8], c: usize) -> &mut [u8; BLOCK] {
    let at = block_at(c);
    (&mut b[at..at + BLOCK]).try_into().unwrap()
}

fn has_stopped(block: &[u8; BLOCK]) -> bool {
    block[0] != 0
}

fn record(block: &[u8; BLOCK]) -> &[u8; RECORD] {
    block[1..1 + RECORD].try_into().unwrap()
}

fn record_mut(block: &mut [u8; BLOCK]) -> &mut [u8; RECORD] {
    (&mut block[1..1 + RECORD]).try_into().unwrap()
}

fn channel(block: &[u8; BLOCK], a: usize) -> &[u8; CHANNEL] {
    let at = channel_at(a);
    block[at..at + CHANNEL].try_into().unwrap()
}

fn channel_mut(block: &mut [u8; BLOCK], a: usize) -> &mut [u8; CHANNEL] {
    let at = channel_at(a);
    (&mut block[at..at + CHANNEL]).try_into().unwrap()
}

fn waiting(channel: &[u8; CHANNEL]) -> usize {
    channel[0] as usize
}

fn slot_at(i: usize) -> usize {
    2 + SLOT * (i % CAPACITY)
}

fn first(channel: &[u8; CHANNEL]) -> &[u8] {
    let at = slot_at(channel[1] as usize);
    &channel[at..at + SLOT]
}

fn push(channel: &mut [u8; CHANNEL], slot: &[u8; SLOT]) {
    let at = slot_at(channel[1] as usize + channel[0] as usize);
    channel[at..at + SLOT].copy_from_slice(slot);
    channel[0] += 1;
}

fn pop(channel: &mut [u8; CHANNEL]) {
    channel[0] -= 1;
    channel[1] = ((channel[1] as usize + 1) % CAPACITY) as u8;
}

fn halt(block: &mut [u8; BLOCK], n: usize) {
    block[0] = 1;
    for a in 1..=n {
        channel_mut(block, a)[0] = 0;
    }
}

fn block_is_sound(block: &[u8; BLOCK], n: usize, f: usize, c: usize) -> bool {
    Record(record(block)).is_sound(n, f, c) && (1..=n).all(|a| waiting(channel(block, a)) <= CAPACITY)
}

fn stopped_nodes(b: &[u8], n: usize) -> usize {
    (1..=n).filter(|&c| has_stopped(block(b, c))).count()
}

/// The n and f that sound bytes state, or 12, 2.
fn stated(b: &[u8]) -> Result<(usize, usize), Refusal> {
    let n = *b.first().ok_or(12)? as usize;
    if !(1..=16).contains(&n) {
        return Err(2);
    }
    if b.len() != size(n) {
        return Err(12);
    }
    let f = b[1] as usize;
    let sound = is_size(n, f) && (1..=n).all(|c| block_is_sound(block(b, c), n, f, c));
    if sound && stopped_nodes(b, n) <= f {
        Ok((n, f))
    } else {
        Err(2)
    }
}

/// One node more may stop (10).
fn may_stop(b: &[u8], n: usize, f: usize) -> Result<(), Refusal> {
    if stopped_nodes(b, n) < f {
        Ok(())
    } else {
        Err(10)
    }
}

/// Makes the lent bytes a fresh cluster of n nodes, of which f may stop, or refuses with 1, 12.
pub fn fresh(n: usize, f: usize, b: &mut [u8]) -> Result<Ending, Refusal> {
    if !is_size(n, f) {
        return Err(1);
    }
    if b.len() != size(n) {
        return Err(12);
    }
    b.fill(0);
    b[0] = n as u8;
    b[1] = f as u8;
    for c in 1..=n {
        Record(record_mut(block_mut(b, c))).make_blank(n, f, c);
    }
    Ok(Ending::None)
}

/// Begins an operation at node c, or refuses with 12, 2, 3, 4, 5, 6, 10, 11.
/// A cut lets out that many entries, then the node stops.
pub fn begin(b: &mut [u8], c: usize, operation: Operation, cut: Option<usize>) -> Result<Ending, Refusal> {
    let (n, f) = stated(b)?;
    if !(1..=n).contains(&c) {
        return Err(3);
    }
    let own = block(b, c);
    if has_stopped(own) {
        return Err(4);
    }
    let record = record(own);
    if !matches!(Record(record).wait(), Some(Wait::Idle)) {
        return Err(5);
    }
    if Record(record).is_full() {
        return Err(6);
    }
    if cut.is_some() {
        may_stop(b, n, f)?;
    }
    let mut step = Step::new(*record, Wait::Idle);
    step.begin(operation);
    has_room(b, n, c, c, cut, 0, step.messages())?;
    settle(b, n, c, c, cut, &step);
    Ok(Ending::None)
}

/// Delivers what has waited longest on the channel from a to c, or refuses with 12, 2, 3, 4, 8, 7, 9, 10, 11.
/// The view of a scan that ends goes to `view`.
pub fn deliver(b: &mut [u8], a: usize, c: usize, cut: Option<usize>, view: &mut [u8; VIEW]) -> Result<Ending, Refusal> {
    let (n, f) = stated(b)?;
    if !(1..=n).contains(&a) || !(1..=n).contains(&c) {
        return Err(3);
    }
    let own = block(b, c);
    if has_stopped(own) {
        return Err(4);
    }
    let incoming = channel(own, a);
    if waiting(incoming) == 0 {
        return Err(8);
    }
    let slot = first(incoming);
    let (m, _) = read_prefix(n, slot).map_err(|_| 7)?;
    let record = record(own);
    if let Message::Value { tag, writer, .. } = m {
        if Record(record).is_stale(a, writer as usize, tag) {
            return Err(9);
        }
    }
    if cut.is_some() {
        may_stop(b, n, f)?;
    }
    let wait = Record(record).wait().unwrap_or(Wait::Idle);
    let mut step = Step::new(*record, wait);
    step.message(a, m, &slot[18..18 + 16 * n]);
    has_room(b, n, a, c, cut, usize::from(a == c), step.messages())?;
    pop(channel_mut(block_mut(b, c), a));
    settle(b, n, a, c, cut, &step);
    if cut.is_some() {
        return Ok(Ending::None);
    }
    if let Ending::Scan(_) = step.ending {
        *view = step.view;
    }
    Ok(step.ending)
}

/// Stops node c, or refuses with 12, 2, 3, 4, 10.
pub fn stop(b: &mut [u8], c: usize) -> Result<Ending, Refusal> {
    let (n, f) = stated(b)?;
    if !(1..=n).contains(&c) {
        return Err(3);
    }
    if has_stopped(block(b, c)) {
        return Err(4);
    }
    may_stop(b, n, f)?;
    halt(block_mut(b, c), n);
    Ok(Ending::None)
}

/// Every node can hold what c lets out to it (11). `gone` messages leave the channel from c to itself.
fn has_room(
    b: &[u8],
    n: usize,
    a: usize,
    c: usize,
    cut: Option<usize>,
    gone: usize,
    messages: &[Message],
) -> Result<(), Refusal> {
    let mut more = [0; 16];
    let mut left = cut.unwrap_or(usize::MAX);
    for m in messages {
        for k in receivers(n, a, m, &mut left) {
            more[k - 1] += 1;
        }
    }
    let room = |k: usize| {
        let to = block(b, k);
        has_stopped(to)
            || k == c && cut.is_some()
            || waiting(channel(to, c)) + more[k - 1] <= CAPACITY + if k == c { gone } else { 0 }
    };
    if (1..=n).all(room) {
        Ok(())
    } else {
        Err(11)
    }
}

/// The nodes that a message goes to, as far as `left` entries reach: an answer goes to a, any other to 1 to n in turn.
fn receivers(n: usize, a: usize, m: &Message, left: &mut usize) -> impl Iterator<Item = usize> {
    let all = if m.is_answer() { a..a + 1 } else { 1..n + 1 };
    let count = all.len().min(*left);
    *left -= count;
    all.take(count)
}

/// Node c takes the step: its record is written, in a cut it stops, and the entries are let out.
fn settle(b: &mut [u8], n: usize, a: usize, c: usize, cut: Option<usize>, step: &Step<[u8; RECORD]>) {
    let own = block_mut(b, c);
    *record_mut(own) = step.record.0;
    if cut.is_some() {
        halt(own, n);
    }
    let mut left = cut.unwrap_or(usize::MAX);
    for m in step.messages() {
        let mut slot = [0; SLOT];
        m.encode(&step.view[..16 * n], &mut slot);
        for k in receivers(n, a, m, &mut left) {
            let to = block_mut(b, k);
            if !has_stopped(to) {
                push(channel_mut(to, c), &slot);
            }
        }
    }
}
