//! Messages: tagged fields, each a mark, a length of two bytes and the contents.
use super::bytes::{put_word, view_ok, word, Report, LIMIT};
use super::Refusal;

/// The view of a good message stays in its bytes, from byte 18 on.
#[derive(Clone, Copy)]
pub enum Message {
    Read { request: u64 },
    ReadAnswer { request: u64, tag: u64 },
    Write { request: u64, tag: u64 },
    WriteAnswer { request: u64, tag: u64 },
    Echo { tag: u64 },
    Value { tag: u64, writer: u8, report: Report },
    Good { tag: u64 },
}

use Message::*;

fn is_request(q: u64) -> bool {
    (1..=LIMIT).contains(&q)
}

impl Message {
    /// An answer goes to one node, the other kinds to all.
    pub fn is_answer(&self) -> bool {
        matches!(self, ReadAnswer { .. } | WriteAnswer { .. })
    }

    pub fn size(&self, n: usize) -> usize {
        match self {
            Read { .. } | Echo { .. } => 15,
            ReadAnswer { .. } | Write { .. } | WriteAnswer { .. } => 26,
            Value { .. } => 30,
            Good { .. } => 18 + 16 * n,
        }
    }

    fn is_allowed(&self, n: usize, view: &[u8]) -> bool {
        match *self {
            Read { request } => is_request(request),
            ReadAnswer { request, tag } | Write { request, tag } | WriteAnswer { request, tag } => {
                is_request(request) && tag <= LIMIT
            }
            Echo { tag } => (1..=LIMIT).contains(&tag),
            Value { tag, writer, .. } => (1..=LIMIT).contains(&tag) && (1..=n).contains(&(writer as usize)),
            Good { tag } => view.len() == 16 * n && tag <= LIMIT && view_ok(view, tag),
        }
    }

    /// Writes the message at the front of `out`, which has room for it.
    pub fn encode(&self, view: &[u8], out: &mut [u8]) {
        match *self {
            Read { request } => put_one(out, 1, 2, request),
            ReadAnswer { request, tag } => put_two(out, 2, request, tag),
            Write { request, tag } => put_two(out, 3, request, tag),
            WriteAnswer { request, tag } => put_two(out, 4, request, tag),
            Echo { tag } => put_one(out, 5, 3, tag),
            Value { tag, writer, report } => {
                put_one(out, 6, 3, tag);
                out[15..22].copy_from_slice(&[4, 0, 1, writer, 5, 0, 8]);
                out[22..30].copy_from_slice(&report);
            }
            Good { tag } => {
                put_one(out, 7, 3, tag);
                let [high, low] = (view.len() as u16).to_be_bytes();
                out[15..18].copy_from_slice(&[6, high, low]);
                out[18..18 + view.len()].copy_from_slice(view);
            }
        }
    }
}

fn put_one(out: &mut [u8], kind: u8, mark: u8, x: u64) {
    out[..7].copy_from_slice(&[1, 0, 1, kind, mark, 0, 8]);
    put_word(out, 7, x);
}

fn put_two(out: &mut [u8], kind: u8, request: u64, tag: u64) {
    put_one(out, kind, 2, request);
    out[15..18].copy_from_slice(&[3, 0, 8]);
    put_word(out, 18, tag);
}

/// The eight-byte field with this mark at a place.
fn number(b: &[u8], at: usize, mark: u8) -> Option<u64> {
    let field = b.get(at..at + 11)?;
    (field[..3] == [mark, 0, 8]).then(|| word(field, 3))
}

fn parse(n: usize, b: &[u8]) -> Option<Message> {
    if b.get(..3)? != [1, 0, 1] {
        return None;
    }
    Some(match *b.get(3)? {
        1 => Read { request: number(b, 4, 2)? },
        2 => ReadAnswer { request: number(b, 4, 2)?, tag: number(b, 15, 3)? },
        3 => Write { request: number(b, 4, 2)?, tag: number(b, 15, 3)? },
        4 => WriteAnswer { request: number(b, 4, 2)?, tag: number(b, 15, 3)? },
        5 => Echo { tag: number(b, 4, 3)? },
        6 => {
            let tag = number(b, 4, 3)?;
            let tail: &[u8; 15] = b.get(15..30)?.try_into().ok()?;
            let [4, 0, 1, writer, 5, 0, 8, report @ ..] = *tail else {
                return None;
            };
            Value { tag, writer, report }
        }
        7 => {
            let tag = number(b, 4, 3)?;
            let [high, low] = (16 * n as u16).to_be_bytes();
            if b.len() < 18 + 16 * n || b[15..18] != [6, high, low] {
                return None;
            }
            Good { tag }
        }
        _ => return None,
    })
}

/// Reads the message at the front of b: the message and its length, or 1, 7.
pub fn read_prefix(n: usize, b: &[u8]) -> Result<(Message, usize), Refusal> {
    if !(1..=16).contains(&n) {
        return Err(1);
    }
    let m = parse(n, b).ok_or(7)?;
    let view = if let Good { .. } = m { &b[18..18 + 16 * n] } else { &[] };
    if m.is_allowed(n, view) {
        Ok((m, m.size(n)))
    } else {
        Err(7)
    }
}

/// Reads bytes that are one message, or refuses with 1, 7.
pub fn read(n: usize, b: &[u8]) -> Result<Message, Refusal> {
    match read_prefix(n, b)? {
        (m, size) if size == b.len() => Ok(m),
        _ => Err(7),
    }
}

/// Writes a message at the front of `out`: its length, or 1, 7, 12.
pub fn write(n: usize, m: &Message, view: &[u8], out: &mut [u8]) -> Result<usize, Refusal> {
    if !(1..=16).contains(&n) {
        return Err(1);
    }
    if !m.is_allowed(n, view) {
        return Err(7);
    }
    let size = m.size(n);
    if out.len() < size {
        return Err(12);
    }
    m.encode(view, out);
    Ok(size)
}
