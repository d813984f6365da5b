//! Messages read and written, by kind.
use super::views::some_view;
use super::ROUNDS;
use crate::clock::seconds;
use crate::dice::Dice;
use crate::rows::Rows;
use crate::side::{Numbers, Plain, Proved, Report, Side, NO_REPORT};
use crate::times::{Times, PAGE};
use std::hint::black_box;

/// The nodes that messages are for.
const NODES: usize = 16;

struct Case {
    numbers: Numbers,
    report: Report,
    view: Vec<u8>,
    bytes: Vec<u8>,
}

fn some_message(dice: &mut Dice, kind: u64) -> Case {
    let tag = dice.number() >> 2 | 1 << 62;
    let numbers = [kind, dice.number() >> 2 | 1, dice.number() % 16 + 1, tag];
    let report = dice.number().to_be_bytes();
    let view = some_view(dice, NODES, tag);
    let mut bytes = vec![0; 274];
    let mut size = 0;
    Plain::write(NODES, &numbers, &report, &view, &mut bytes, &mut size);
    bytes.truncate(size);
    Case { numbers, report, view, bytes }
}

/// Prints bytes per second by kind and of all kinds together.
pub fn messages(rows: &mut Rows) {
    println!("messages of sixteen nodes, megabytes per second");
    println!("{:>14} {:>6} {:>12} {:>12} {:>8} {:>8}", "kind", "", "proved", "plain", "ratio", "worst");
    let kinds = ["read", "read answer", "write", "write answer", "echo", "value", "good"];
    let mut dice = Dice::new(3);
    let (mut parts, mut out) = (([0; 4], NO_REPORT), (Box::new(Pages([0; 2 * PAGE])), 0));
    let mut sums = [("read", 0.0, Times::NONE), ("write", 0.0, Times::NONE)];
    for (kind, name) in (1..).zip(kinds) {
        let cases: Vec<Case> = (0..64).map(|_| some_message(&mut dice, kind)).collect();
        let bytes = (ROUNDS * cases.iter().map(|c| c.bytes.len()).sum::<usize>()) as f64;
        let times = [
            Times::of(
                &mut parts,
                |parts, _| read_all::<Proved>(parts, &cases),
                |parts, _| read_all::<Plain>(parts, &cases),
            ),
            Times::of(
                &mut out,
                |out, place| write_all::<Proved>(out, place, &cases),
                |out, place| write_all::<Plain>(out, place, &cases),
            ),
        ];
        for ((what, all_bytes, all), t) in sums.iter_mut().zip(times) {
            print_row(name, what, bytes, &t);
            *all_bytes += bytes;
            all.add(&t);
            rows.add("messages, one kind alone", &format!("to {what}: {name}"), &t);
        }
    }
    for (what, bytes, t) in &sums {
        print_row("one of each", what, *bytes, t);
        rows.add("messages, one of each kind", &format!("to {what}"), t);
    }
}

fn print_row(name: &str, what: &str, bytes: f64, t: &Times) {
    let (proved, plain) = (bytes / t.proved() / 1e6, bytes / t.other() / 1e6);
    println!("{name:>14} {what:>6} {proved:>12.0} {plain:>12.0} {t}");
}

/// What a message is read to.
type Parts = (Numbers, Report);

fn read_all<S: Side>((numbers, report): &mut Parts, cases: &[Case]) -> f64 {
    seconds(|| {
        for _ in 0..ROUNDS {
            for case in cases {
                black_box(S::read(NODES, black_box(&case.bytes), numbers, report));
                black_box((&*numbers, &*report));
            }
        }
    })
}

/// Two pages, the first of which begins where a page begins.
#[repr(align(4096))]
struct Pages([u8; 2 * PAGE]);

/// What a message is written to: its bytes, and its length.
type Output = (Box<Pages>, usize);

/// A message begins 0, 1, 4, 5, .. bytes before the end of a page, by its place, up to the length of a value: a word that
/// is stored across the end is slow.
fn write_all<S: Side>((pages, length): &mut Output, place: usize, cases: &[Case]) -> f64 {
    let before = 4 * (place / 2) + place % 2;
    let out = &mut pages.0[PAGE - before..][..274];
    seconds(|| {
        for _ in 0..ROUNDS {
            for case in cases {
                let Case { numbers, report, view, .. } = black_box(case);
                black_box(S::write(NODES, numbers, report, view, out, length));
                black_box((&*out, &*length));
            }
        }
    })
}
