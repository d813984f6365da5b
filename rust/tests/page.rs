//! The desk's page, held against a printer by `format!`; and what refuses it, which writes nothing.
// The oracle's generator, of which not all is needed here.
#[allow(dead_code)]
#[path = "../../oracle/src/dice.rs"]
mod dice;

use dice::Dice;
use snapshot::{lent, page, page_size, Refusal, View, LINE};

/// What a node has posted, and its tag; none where it has not reported.
type Entry = Option<(u64, [u16; 4])>;

/// The bytes of a view with these entries.
fn view_of(entries: &[Entry]) -> Vec<u8> {
    let bytes = |entry: &Entry| {
        let (tag, counts) = entry.unwrap_or_default();
        [&tag.to_be_bytes()[..], counts.map(u16::to_be_bytes).as_flattened()].concat()
    };
    entries.iter().flat_map(bytes).collect()
}

fn line(label: impl ToString, [a, b, c, d]: [String; 4]) -> String {
    format!("{:>2} {a:>7} {b:>7} {c:>7} {d:>7}\n", label.to_string())
}

/// The page of these entries.
fn printed(entries: &[Entry]) -> String {
    let node = |(node, entry): (usize, &Entry)| match entry {
        Some((_, counts)) => line(node, counts.map(|count| count.to_string())),
        None => line(node, [(); 4].map(|()| "-".to_string())),
    };
    let lines: String = (1..).zip(entries).map(node).collect();
    let each = |i: usize| entries.iter().flatten().map(move |(_, counts)| u32::from(counts[i]));
    let figures = [each(0).sum(), each(1).sum(), each(2).max().unwrap_or(0), each(3).sum()];
    lines + &line("==", figures.map(|figure| figure.to_string()))
}

/// Calls for a page with a buffer of so many bytes. A refusal leaves all of it and the length as they were; a page all
/// past its end.
fn paged(n: usize, view: &[u8], room: usize) -> Result<String, u8> {
    let before: Vec<u8> = (0..room).map(|i| i as u8).collect();
    let (mut out, mut length) = (before.clone(), 7);
    match lent::page(n, view, &mut out, &mut length) {
        0 => {
            assert_eq!(length, LINE * (n + 1));
            assert_eq!(out[length..], before[length..]);
            out.truncate(length);
            Ok(String::from_utf8(out).unwrap())
        }
        code => {
            assert!(out == before && length == 7, "{code} has written");
            Err(code)
        }
    }
}

/// The page of these entries, by each of the calls.
fn page_of(entries: &[Entry]) -> String {
    let (n, bytes) = (entries.len(), view_of(entries));
    let text = paged(n, &bytes, page_size(n)).unwrap();
    let mut out = vec![0; page_size(n)];
    assert_eq!(page(n, &bytes, &mut out), Ok(text.len()));
    assert_eq!(out, text.as_bytes());
    assert_eq!(View::from_bytes(n, &bytes).unwrap().page(), text);
    text
}

#[test]
fn absent_and_zero_side_by_side() {
    let entries = [Some((1, [1, 2, 3, 4])), None, Some((5, [0; 4])), None];
    let lines = [
        " 1       1       2       3       4\n",
        " 2       -       -       -       -\n",
        " 3       0       0       0       0\n",
        " 4       -       -       -       -\n",
        "==       1       2       3       4\n",
    ];
    assert_eq!(page_of(&entries), lines.concat());
    assert_eq!(printed(&entries), lines.concat());
}

#[test]
fn the_greatest_counts() {
    let text = page_of(&[Some((i64::MAX as u64, [65535; 4])); 16]);
    let lines: Vec<&str> = text.split_terminator('\n').collect();
    assert_eq!(lines.len(), 17);
    assert_eq!(lines[0], " 1   65535   65535   65535   65535");
    assert_eq!(lines[15], "16   65535   65535   65535   65535");
    assert_eq!(lines[16], "== 1048560 1048560   65535 1048560");
}

#[test]
fn one_node() {
    assert_eq!(
        page_of(&[Some((1, [9, 10, 9999, 10000]))]),
        " 1       9      10    9999   10000\n==       9      10    9999   10000\n"
    );
    assert_eq!(page_of(&[None]), " 1       -       -       -       -\n==       0       0       0       0\n");
}

/// Every count, in the first column and in the last.
#[test]
fn every_count() {
    for count in 0..=65535 {
        let entries = [Some((1, [count, count / 2, count / 3, 65535 - count]))];
        assert_eq!(page_of(&entries), printed(&entries));
    }
}

/// An entry of any number of digits in each count, often none.
fn some_entry(dice: &mut Dice) -> Entry {
    let count = |dice: &mut Dice| (dice.number() as u16) >> dice.below(16);
    (!dice.chance(300)).then(|| ((dice.number() >> 1).max(1), [(); 4].map(|()| count(dice))))
}

fn some_entries(dice: &mut Dice, n: usize) -> Vec<Entry> {
    (0..n).map(|_| some_entry(dice)).collect()
}

/// What a page tells: each node's counts or that it has none, and the figures.
fn told(text: &str) -> Vec<Option<[u32; 4]>> {
    let counts = |line: &str| {
        assert_eq!(line.len(), LINE - 1);
        let cells = [2, 10, 18, 26].map(|at| line[at..at + 8].trim_start());
        (cells != ["-"; 4]).then(|| cells.map(|cell| cell.parse().unwrap()))
    };
    text.lines().map(counts).collect()
}

#[test]
fn random_views_of_all_sizes() {
    let mut dice = Dice::new(1);
    for n in (1..=16).cycle().take(16_000) {
        let entries = some_entries(&mut dice, n);
        let text = page_of(&entries);
        assert_eq!(text, printed(&entries));
        let told = told(&text);
        let shown: Vec<_> = entries.iter().map(|entry| entry.map(|(_, counts)| counts.map(u32::from))).collect();
        assert_eq!(told[..n], shown);
        let figures = View::from_bytes(n, &view_of(&entries)).unwrap().figures();
        assert_eq!(told[n..], [Some([figures.extensions, figures.lines, figures.waiting, figures.wakeups])]);
    }
}

#[test]
fn tags_are_not_shown() {
    let mut dice = Dice::new(2);
    for n in 1..=16 {
        let mut entries = some_entries(&mut dice, n);
        let text = page_of(&entries);
        for tag in [1, 255, 256, i64::MAX as u64] {
            entries.iter_mut().flatten().for_each(|entry| entry.0 = tag);
            assert_eq!(page_of(&entries), text);
        }
    }
}

/// `paged` looks that all past the page stays.
#[test]
fn shorter_and_longer_buffers() {
    let mut dice = Dice::new(3);
    for n in 1..=16 {
        let entries = some_entries(&mut dice, n);
        let (view, text) = (view_of(&entries), printed(&entries));
        let size = LINE * (n + 1);
        assert_eq!(page_size(n), size);
        for room in [0, 1, LINE, size - LINE, size - 1] {
            assert_eq!(paged(n, &view, room), Err(15), "{room} bytes for {n} nodes");
        }
        for room in [size, size + 1, size + LINE, 2 * size, 10_000] {
            assert_eq!(paged(n, &view, room), Ok(text.clone()), "{room} bytes for {n} nodes");
        }
        assert_eq!(page(n, &view, &mut vec![0; size - 1]), Err(Refusal::Page));
    }
    for n in [0, 17, usize::MAX] {
        assert_eq!(page_size(n), 0);
    }
}

/// 16n is 0 in 64 bits where n is 2^60.
#[test]
fn lengths_and_numbers_of_nodes() {
    for (n, length, code) in [
        (0, 0, 1),
        (17, 17 * 16, 1),
        (1000, 1000 * 16, 1),
        (0, 16, 12),
        (1, 0, 12),
        (1, 15, 12),
        (1, 17, 12),
        (16, 15 * 16, 12),
        (1 << 60, 0, 12),
        ((1 << 60) + 1, 16, 12),
        (usize::MAX, 0, 12),
    ] {
        assert_eq!(paged(n, &vec![0; length], 40_000), Err(code), "{length} bytes for {n} nodes");
    }
}

#[test]
fn views_that_are_none() {
    for n in 1..=16 {
        for node in 0..n {
            let good = view_of(&vec![None; n]);
            let at = 16 * node;
            for k in 8..16 {
                let mut view = good.clone();
                view[at + k] = 1;
                assert_eq!(paged(n, &view, page_size(n)), Err(7), "a report beside tag 0 at node {}", node + 1);
            }
            let mut view = good;
            view[at] = 128;
            assert_eq!(paged(n, &view, page_size(n)), Err(7), "a tag above its limit at node {}", node + 1);
        }
    }
}

/// Of every set of faults the first in the order is answered.
#[test]
fn the_order_of_refusals() {
    let order = [12, 1, 7, 15];
    for set in 0..1 << order.len() {
        let has = |code| order.iter().position(|&other| other == code).is_some_and(|i| set >> i & 1 == 1);
        for n in if has(1) { [0, 17] } else { [1, 16] } {
            let mut view = vec![0; 16 * n + usize::from(has(12))];
            if let Some(first) = view.first_mut() {
                *first = if has(7) { 128 } else { 1 };
            }
            let told = paged(n, &view, LINE * (n + 1) - usize::from(has(15)));
            let first = order.into_iter().find(|&code| has(code));
            assert_eq!(told.err(), first, "faults {set:04b} of {n} nodes");
        }
    }
}
