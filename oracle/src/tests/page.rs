//! What pages are trusted for: document 02's columns, the refusals in their order, and no byte written beside.

use crate::cluster::Refusal;
use crate::dice::Dice;
use crate::message::{View, LIMIT};
use crate::page::{page, write, SHORT_BUFFER};
use crate::record::{BAD_LENGTH, BAD_NUMBER, NOT_OF_THE_LAYOUT};
use crate::session::last_scan;
use crate::wire::view_bytes;

const REPORT: u64 = 0x0001_0002_0003_0004;

/// What a page is written over.
const BEFORE: u8 = 0xa5;

/// A write in a buffer of so many bytes, with what it leaves there.
fn written(n: usize, view: &[u8], size: usize) -> (Result<usize, Refusal>, Vec<u8>) {
    let mut out = vec![BEFORE; size];
    (write(n, view, &mut out), out)
}

#[test]
fn one_node_has_the_same_line_as_the_house() {
    let lines = [" 1       1       2       3       4\n", "==       1       2       3       4\n"];
    assert_eq!(page(&vec![Some((1, REPORT))]), lines.concat());
}

#[test]
fn an_absent_report_stands_beside_one_of_zeros() {
    let lines = [
        " 1       -       -       -       -\n",
        " 2       0       0       0       0\n",
        " 3       1       2       3       4\n",
        "==       1       2       3       4\n",
    ];
    assert_eq!(page(&vec![None, Some((1, 0)), Some((LIMIT, REPORT))]), lines.concat());
}

#[test]
fn the_largest_figures_have_seven_digits() {
    let full = page(&vec![Some((1, u64::MAX)); 16]);
    let nodes = (1..=16).map(|node| format!("{node:>2}   65535   65535   65535   65535\n"));
    assert_eq!(full, nodes.collect::<String>() + "== 1048560 1048560   65535 1048560\n");
    assert_eq!(full.len(), 35 * 17);
}

/// All nodes watch one queue, so their calls waiting are not added up.
#[test]
fn calls_waiting_are_the_largest_count() {
    let last = |view: View| page(&view).lines().last().map(str::to_string);
    let [three, five] = [0x0001_0002_0003_0004, 0x0010_0020_0005_0040];
    for view in [vec![Some((1, three)), Some((2, five))], vec![Some((2, five)), Some((1, three)), None]] {
        assert_eq!(last(view).unwrap(), "==      17      34       5      68");
    }
    for view in [vec![None], vec![None; 16]] {
        assert_eq!(last(view).unwrap(), "==       0       0       0       0");
    }
}

#[test]
fn a_buffer_may_be_longer_and_no_byte_shorter() {
    let view = vec![None, Some((7, REPORT))];
    let (bytes, shown) = (view_bytes(&view), page(&view));
    for size in 0..105 {
        assert_eq!(written(2, &bytes, size), (Err(SHORT_BUFFER), vec![BEFORE; size]));
    }
    for more in [0, 1, 300] {
        let left = [shown.as_bytes(), &vec![BEFORE; more]].concat();
        assert_eq!(written(2, &bytes, 105 + more), (Ok(105), left));
    }
}

#[test]
fn refusals_come_in_their_order() {
    // An entry with a tag above its limit, and one with a byte beside tag 0.
    let (high, beside) = (view_bytes(&vec![Some((LIMIT + 1, 0))]), view_bytes(&vec![Some((0, 1))]));
    let cases = [
        (1, &high[..15], BAD_LENGTH),
        (0, &high, BAD_LENGTH),
        (17, &high, BAD_LENGTH),
        // Sixteen times these is 0 and 16, if 64 bits are all that is kept of it.
        (1 << 60, &[], BAD_LENGTH),
        ((1 << 60) + 1, &high, BAD_LENGTH),
        (0, &[], BAD_NUMBER),
        (17, &high.repeat(17), BAD_NUMBER),
        (1, &high, NOT_OF_THE_LAYOUT),
        (1, &beside, NOT_OF_THE_LAYOUT),
        (1, &[0; 16], SHORT_BUFFER),
    ];
    for (n, view, refusal) in cases {
        assert_eq!(written(n, view, 69), (Err(refusal), vec![BEFORE; 69]), "n {n}, {} bytes", view.len());
    }
    assert_eq!(written(1, &[0; 16], 70).0, Ok(70));
}

/// A page's bytes alone tell each report or absence.
#[test]
fn a_view_is_read_back_from_its_page() {
    let mut dice = Dice::new(1);
    for _ in 0..1000 {
        let n = 1 + dice.below(16);
        let view: View = (0..n).map(|_| dice.chance(700).then(|| (1, dice.number()))).collect();
        let shown = page(&view);
        let read = |line: &str| {
            let counts = (0..4).map(|k| line[3 + 8 * k..][..7].trim_start().parse::<u64>().ok());
            counts.collect::<Option<Vec<_>>>().map(|counts| (1, counts.iter().fold(0, |sum, count| sum << 16 | count)))
        };
        assert_eq!(shown.lines().take(n).map(read).collect::<View>(), view);
        assert_eq!((shown.len(), shown.lines().count()), (35 * (n + 1), n + 1));
    }
}

#[test]
fn the_page_of_a_session_is_that_of_its_last_scan() {
    let (scan, update) = ("s 1\n".to_string() + &"d 1 1\n".repeat(5), format!("u 1 {REPORT:016x}\n"));
    let last = |session: String| last_scan(session.as_bytes()).expect("a session in memory can be read");
    assert_eq!(last(format!("1 0\n{scan}")), Some(vec![None]));
    assert_eq!(last(format!("1 0\n{scan}{update}{}{scan}s 1\n", "d 1 1\n".repeat(11))), Some(vec![Some((1, REPORT))]));
    for none in ["", "1 0\n", "6 2\ns 1\n", "1 0\ns 1\nd 1 1\n"] {
        assert_eq!(last(none.to_string()), None);
    }
}
