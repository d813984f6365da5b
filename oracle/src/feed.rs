//! Feeds a program its input in pieces of given sizes: each of its reads gets just one piece. The pieces go through a
//! pair of datagram sockets, where a read takes one datagram and an empty one is the end.

use std::io;
use std::os::fd::OwnedFd;
use std::os::unix::net::UnixDatagram;
use std::process::{Command, Output, Stdio};

/// The text in pieces, whose sizes are the given ones in turn, again and again.
fn pieces<'a>(mut text: &'a [u8], sizes: &'a [usize]) -> impl Iterator<Item = &'a [u8]> {
    sizes.iter().cycle().map_while(move |&size| {
        let (piece, rest) = text.split_at(size.min(text.len()));
        text = rest;
        (!piece.is_empty()).then_some(piece)
    })
}

/// Runs the program on the text and waits for its end. A program that ends before it has read all is left in peace. Of
/// a piece that is longer than the program's buffer the rest is lost.
pub fn feed(text: &[u8], sizes: &[usize], program: &mut Command) -> io::Result<Output> {
    let (ours, theirs) = UnixDatagram::pair()?;
    let child = program.stdin(Stdio::from(OwnedFd::from(theirs))).spawn()?;
    // The program alone holds its end now, so that a send fails once it is gone.
    program.stdin(Stdio::null());
    for piece in pieces(text, sizes).chain([&[][..]]) {
        if ours.send(piece).is_err() {
            break;
        }
    }
    child.wait_with_output()
}

#[cfg(test)]
mod tests {
    use super::{feed, pieces};
    use std::process::{Command, Stdio};

    #[test]
    fn sizes_come_in_turn() {
        let all: Vec<&[u8]> = pieces(b"abcdefg", &[1, 3]).collect();
        assert_eq!(all, [&b"a"[..], b"bcd", b"e", b"fg"]);
        assert_eq!(pieces(b"", &[4]).count(), 0);
    }

    /// `dd` tells how many reads it made, and how many of them filled its buffer.
    #[test]
    fn a_read_gets_one_piece() {
        let mut dd = Command::new("dd");
        dd.arg("ibs=3").env("LC_ALL", "C").stdout(Stdio::piped()).stderr(Stdio::piped());
        let output = feed(b"abcdefgh", &[1, 3], &mut dd).expect("dd runs");
        assert_eq!(output.stdout, b"abcdefgh");
        assert!(String::from_utf8_lossy(&output.stderr).contains("2+2 records in"));
    }

    #[test]
    fn a_program_that_does_not_read_is_no_error() {
        let output = feed(&[b'x'; 100_000], &[1], &mut Command::new("true")).expect("true runs");
        assert!(output.status.success());
    }
}
