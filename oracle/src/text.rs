//! The text of a session: lines in, events out, and the lines that answer them.

use crate::cluster::{Event, Extent, Outcome};
use crate::message::{NodeId, Report};
use crate::node::{Ending, Operation};
use std::io::{self, BufRead, BufReader, Read};

/// The most bytes of a line. No line that means anything is longer.
const LONGEST: usize = 40;

/// The most nodes of a session.
const MOST_NODES: usize = 5;

/// One line of the input, without its line feed.
pub enum Line {
    Text(Vec<u8>),
    /// Too long, or the input ended before its line feed.
    Broken,
}

/// The lines of an input of any length, in constant memory.
pub struct Lines<R> {
    input: BufReader<R>,
}

impl<R: Read> Lines<R> {
    pub fn new(input: R) -> Lines<R> {
        Lines { input: BufReader::new(input) }
    }

    /// The next line, or None where nothing follows the last line feed.
    pub fn next_line(&mut self) -> io::Result<Option<Line>> {
        let mut text = vec![];
        let mut length = 0;
        loop {
            let piece = match self.input.fill_buf() {
                Err(error) if error.kind() == io::ErrorKind::Interrupted => continue,
                piece => piece?,
            };
            if piece.is_empty() {
                return Ok(if length == 0 { None } else { Some(Line::Broken) });
            }
            let feed = piece.iter().position(|&byte| byte == b'\n');
            let part = &piece[..feed.unwrap_or(piece.len())];
            let room = LONGEST - text.len();
            text.extend(part.iter().take(room));
            length += part.len();
            let used = part.len() + usize::from(feed.is_some());
            self.input.consume(used);
            if feed.is_some() {
                return Ok(Some(if length <= LONGEST { Line::Text(text) } else { Line::Broken }));
            }
        }
    }
}

/// The first line: n and f. Whether a cluster can have them is not looked at, but for the most nodes of a session.
pub fn parse_first(line: &Line) -> Option<(usize, usize)> {
    let Line::Text(text) = line else { return None };
    let mut words = text.split(|&byte| byte == b' ');
    let n = number(words.next()?).filter(|&n| n <= MOST_NODES)?;
    let f = number(words.next()?)?;
    words.next().is_none().then_some((n, f))
}

/// Any other line: an event, or None for a bad line.
pub fn parse_event(line: &Line) -> Option<Event> {
    let Line::Text(text) = line else { return None };
    // An empty word, which two spaces or one at an end would make, is neither a number nor `cut`.
    let mut words = text.split(|&byte| byte == b' ');
    let event = match words.next()? {
        b"u" => {
            let node = number(words.next()?)?;
            let operation = Operation::Update(report(words.next()?)?);
            Event::Begin { node, operation, extent: extent(&mut words)? }
        }
        b"s" => {
            let node = number(words.next()?)?;
            Event::Begin { node, operation: Operation::Scan, extent: extent(&mut words)? }
        }
        b"d" => {
            let from = number(words.next()?)?;
            let to = number(words.next()?)?;
            Event::Deliver { from, to, extent: extent(&mut words)? }
        }
        b"x" => Event::Stop { node: number(words.next()?)? },
        _ => return None,
    };
    match words.next() {
        None => Some(event),
        Some(_) => None,
    }
}

/// Nothing, or `cut` and a number.
fn extent<'a>(words: &mut impl Iterator<Item = &'a [u8]>) -> Option<Extent> {
    match words.next() {
        None => Some(Extent::Whole),
        Some(b"cut") => Some(Extent::Cut(number(words.next()?)?)),
        Some(_) => None,
    }
}

/// One to four digits.
fn number(word: &[u8]) -> Option<usize> {
    if !(1..=4).contains(&word.len()) {
        return None;
    }
    word.iter().try_fold(0, |sum, byte| byte.is_ascii_digit().then(|| 10 * sum + usize::from(byte - b'0')))
}

/// Sixteen hexadecimal digits with small letters.
fn report(word: &[u8]) -> Option<Report> {
    if word.len() != 16 {
        return None;
    }
    word.iter().try_fold(0, |sum, &byte| {
        let digit = match byte {
            b'0'..=b'9' => byte - b'0',
            b'a'..=b'f' => byte - b'a' + 10,
            _ => return None,
        };
        Some(sum << 4 | Report::from(digit))
    })
}

/// The line that answers an event, without its line feed; None where nothing is printed.
pub fn answer(number: usize, node: Option<NodeId>, outcome: &Outcome) -> Option<String> {
    match (outcome, node) {
        (Err(refusal), _) => Some(format!("{number} no {}", refusal.0)),
        (Ok(accepted), Some(node)) => accepted.ending.as_ref().map(|ending| match ending {
            Ending::Done(..) => format!("{number} done {node}"),
            Ending::Spent => format!("{number} spent {node}"),
            Ending::Scan(_, view) => {
                let shown = view.iter().map(|place| match place {
                    Some((_, report)) => format!(" {report:016x}"),
                    None => " -".to_string(),
                });
                format!("{number} scan {node}{}", shown.collect::<String>())
            }
        }),
        (Ok(_), None) => None,
    }
}

/// The line of an event, without its line feed.
pub fn line(event: &Event) -> String {
    let ending = |extent: Extent| match extent {
        Extent::Whole => String::new(),
        Extent::Cut(m) => format!(" cut {m}"),
    };
    match *event {
        Event::Begin { node, operation: Operation::Update(report), extent } => {
            format!("u {node} {report:016x}{}", ending(extent))
        }
        Event::Begin { node, operation: Operation::Scan, extent } => format!("s {node}{}", ending(extent)),
        Event::Deliver { from, to, extent } => format!("d {from} {to}{}", ending(extent)),
        Event::Stop { node } => format!("x {node}"),
    }
}
