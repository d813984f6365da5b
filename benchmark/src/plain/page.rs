//! The desk's page of a view, in two ways: its digits by hand, and by `write!`.
use super::bytes::word;
use super::figures::figures;
use super::Refusal;
use std::io::{self, Write};

/// A line: 34 columns and a line feed.
const LINE: usize = 35;

/// The columns of a line that are for the node, and those for a count, a space before it among them.
const LABEL: usize = 2;
const CELL: usize = 8;

/// The figures of the view and the bytes of `out` that are for the page; or 12, 1, 7, 15.
fn admitted<'a>(n: usize, view: &[u8], out: &'a mut [u8]) -> Result<([u32; 4], &'a mut [u8]), Refusal> {
    let figures = figures(n, view)?;
    Ok((figures, out.get_mut(..LINE * (n + 1)).ok_or(15)?))
}

/// The counts of an entry; none where it has no report.
fn counts(entry: &[u8]) -> Option<[u32; 4]> {
    let count = |at: usize| u32::from(u16::from_be_bytes([entry[at], entry[at + 1]]));
    (word(entry, 0) != 0).then(|| [count(8), count(10), count(12), count(14)])
}

/// Puts the digits of a number at the right end of columns that have room for them and are spaces.
fn put_digits(columns: &mut [u8], mut number: u32) {
    for column in columns.iter_mut().rev() {
        *column = b'0' + (number % 10) as u8;
        number /= 10;
        if number == 0 {
            break;
        }
    }
}

/// Puts four counts into a line of spaces, or a mark for each where there are none, and ends the line.
fn put_counts(line: &mut [u8], counts: Option<[u32; 4]>) {
    let (cells, end) = line[LABEL..].split_at_mut(4 * CELL);
    match counts {
        Some(counts) => cells.chunks_exact_mut(CELL).zip(counts).for_each(|(cell, count)| put_digits(cell, count)),
        None => cells.chunks_exact_mut(CELL).for_each(|cell| cell[CELL - 1] = b'-'),
    }
    end[0] = b'\n';
}

/// Writes the page of a view of n nodes at the front of `out`: its length, or 12, 1, 7, 15.
pub fn page(n: usize, view: &[u8], out: &mut [u8]) -> Result<usize, Refusal> {
    let (figures, page) = admitted(n, view, out)?;
    page.fill(b' ');
    let (lines, last) = page.split_at_mut(LINE * n);
    for ((node, line), entry) in (1..).zip(lines.chunks_exact_mut(LINE)).zip(view.chunks_exact(16)) {
        put_digits(&mut line[..LABEL], node);
        put_counts(line, counts(entry));
    }
    last[..LABEL].fill(b'=');
    put_counts(last, Some(figures));
    Ok(LINE * (n + 1))
}

/// The same by the formats of the standard library.
pub fn page_by_write(n: usize, view: &[u8], out: &mut [u8]) -> Result<usize, Refusal> {
    let (figures, page) = admitted(n, view, out)?;
    write_lines(view, figures, page).expect("a page has room for its lines");
    Ok(LINE * (n + 1))
}

fn write_lines(view: &[u8], figures: [u32; 4], mut page: &mut [u8]) -> io::Result<()> {
    for (node, entry) in (1..).zip(view.chunks_exact(16)) {
        match counts(entry) {
            Some([a, b, c, d]) => writeln!(page, "{node:>2} {a:>7} {b:>7} {c:>7} {d:>7}")?,
            None => writeln!(page, "{node:>2} {0:>7} {0:>7} {0:>7} {0:>7}", '-')?,
        }
    }
    let [a, b, c, d] = figures;
    writeln!(page, "== {a:>7} {b:>7} {c:>7} {d:>7}")
}
