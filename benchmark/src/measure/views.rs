//! What is made of views: figures and pages.
use super::{nodes, ROUNDS};
use crate::clock::seconds;
use crate::dice::Dice;
use crate::rows::Rows;
use crate::side::{Plain, Proved, Side};
use crate::times::Times;
use std::hint::black_box;

/// How often the same views are printed in one run: fewer times, since those by `write!` are slow.
const PAGE_ROUNDS: usize = ROUNDS / 10;

/// A view whose tags are at most `top`.
pub fn some_view(dice: &mut Dice, n: usize, top: u64) -> Vec<u8> {
    (0..n).flat_map(|_| [dice.number() % top + 1, dice.number()]).flat_map(u64::to_be_bytes).collect()
}

/// Views of n nodes in which so many of a thousand reports are absent.
fn some_views(dice: &mut Dice, n: usize, absent: usize) -> Vec<Vec<u8>> {
    let mut views: Vec<Vec<u8>> = (0..64).map(|_| some_view(dice, n, u64::MAX / 2)).collect();
    for entry in views.iter_mut().flat_map(|v| v.chunks_exact_mut(16)) {
        if dice.chance(absent) {
            entry.fill(0);
        }
    }
    views
}

/// Prints figures per second, of views in which every node has reported and of such with a quarter of the reports
/// absent.
pub fn figures(rows: &mut Rows) {
    println!("figures, views per second");
    println!("{:>6} {:>12} {:>12} {:>12} {:>8} {:>8}", "nodes", "reports", "proved", "plain", "ratio", "worst");
    let mut dice = Dice::new(4);
    for n in [1, 3, 5, 16] {
        for (absent, name) in [(0, "all"), (250, "some absent")] {
            let views = some_views(&mut dice, n, absent);
            let t = Times::of(
                &mut [0; 4],
                |figures, _| count_all::<Proved>(figures, n, &views),
                |figures, _| count_all::<Plain>(figures, n, &views),
            );
            let count = (ROUNDS * views.len()) as f64;
            println!("{n:>6} {name:>12} {:>12.0} {:>12.0} {t}", count / t.proved(), count / t.other());
            rows.add("figures", &format!("{}, {name}", nodes(n)), &t);
        }
    }
}

fn count_all<S: Side>(figures: &mut [u32; 4], n: usize, views: &[Vec<u8>]) -> f64 {
    seconds(|| {
        for _ in 0..ROUNDS {
            for view in views {
                black_box(S::figures(n, black_box(view), figures));
                black_box(&*figures);
            }
        }
    })
}

fn change_counts(views: &mut [Vec<u8>], mut change: impl FnMut(u16) -> u16) {
    let reports = views.iter_mut().flat_map(|v| v.chunks_exact_mut(16)).map(|entry| &mut entry[8..]);
    for place in reports.flat_map(|report| report.chunks_exact_mut(2)) {
        let count = change(u16::from_be_bytes([place[0], place[1]]));
        place.copy_from_slice(&count.to_be_bytes());
    }
}

/// The views that pages are timed on: with all reports and with a quarter of them absent, their counts of one to five
/// digits; and with the greatest count everywhere.
fn printed_views(dice: &mut Dice, n: usize) -> [(&'static str, Vec<Vec<u8>>); 3] {
    let [mut all, mut some, mut greatest] = [0, 250, 0].map(|absent| some_views(dice, n, absent));
    change_counts(&mut all, |count| count >> dice.below(16));
    change_counts(&mut some, |count| count >> dice.below(16));
    change_counts(&mut greatest, |_| u16::MAX);
    [("all", all), ("some absent", some), ("65535", greatest)]
}

/// Prints pages per second, beside plain Rust with its digits by hand and by `write!`.
pub fn pages(rows: &mut Rows) {
    println!("pages, views per second");
    println!(
        "{:>6} {:>12} {:>12} {:>12} {:>8} {:>8} {:>12} {:>8} {:>8}",
        "nodes", "reports", "proved", "plain", "ratio", "worst", "by write!", "ratio", "worst"
    );
    let mut dice = Dice::new(5);
    for n in [1, 3, 5, 16] {
        for (name, views) in printed_views(&mut dice, n) {
            let [by_hand, by_write] = Times::of_three(
                &mut (vec![0; 35 * (n + 1)], 0),
                |printed, _| print_all(Proved::page, printed, n, &views),
                |printed, _| print_all(Plain::page, printed, n, &views),
                |printed, _| print_all(Plain::page_by_write, printed, n, &views),
            );
            let count = (PAGE_ROUNDS * views.len()) as f64;
            println!(
                "{n:>6} {name:>12} {:>12.0} {:>12.0} {by_hand} {:>12.0} {by_write}",
                count / by_hand.proved(),
                count / by_hand.other(),
                count / by_write.other()
            );
            let row = format!("{}, {name}", nodes(n));
            rows.add("pages", &row, &by_hand);
            rows.add("pages beside write!", &row, &by_write);
        }
    }
}

/// What a page is printed to: its bytes, and its length.
type Printed = (Vec<u8>, usize);

fn print_all(
    page: impl Fn(usize, &[u8], &mut [u8], &mut usize) -> u8,
    (out, length): &mut Printed,
    n: usize,
    views: &[Vec<u8>],
) -> f64 {
    seconds(|| {
        for _ in 0..PAGE_ROUNDS {
            for view in views {
                black_box(page(n, black_box(view), out, length));
                black_box((&*out, &*length));
            }
        }
    })
}
