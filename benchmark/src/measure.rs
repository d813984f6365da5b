//! The measurements: both sides in turn on the same input and, but for a session that grows, the same lent memory; the
//! best of several runs of each at each place of the stack.
mod codec;
mod events;
mod frame;
mod node;
mod values;
mod views;

use crate::clock::seconds;
use crate::machine;
use crate::network::{Input, Lent};
use crate::rows::Rows;
use crate::side::{Plain, Side};
use crate::times::{LEFT_OUT, PLACES, RUNS, SECONDS};
use std::hint::black_box;

/// How often the same messages or views are gone through in one run.
const ROUNDS: usize = 300;

/// What a row is named by.
fn nodes(n: usize) -> String {
    format!("{n} {}", if n == 1 { "node" } else { "nodes" })
}

/// A node's record, and what is lent beside it.
type Node = (Vec<u8>, Lent);

/// The inputs in turn at a node, from the record that is its start.
fn give_all<S: Side>((record, lent): &mut Node, start: &[u8], inputs: &[Input]) -> f64 {
    record.copy_from_slice(start);
    seconds(|| {
        for input in inputs {
            black_box(input.give::<S>(record, lent));
            black_box(&*lent);
        }
    })
}

/// A node that has the record, with so many bytes for the output, and the record that it comes to.
fn node_and_end(start: &[u8], inputs: &[Input], room: usize) -> (Node, Vec<u8>) {
    let mut node = (start.to_vec(), Lent::new(room));
    give_all::<Plain>(&mut node, start, inputs);
    let end = node.0.clone();
    (node, end)
}

/// The inputs, where the record must come to the one that is its end.
fn give_all_to<S: Side>(node: &mut Node, start: &[u8], inputs: &[Input], end: &[u8]) -> f64 {
    let time = give_all::<S>(node, start, inputs);
    assert!(node.0 == end, "the sides differ");
    time
}

/// Everything, with a session of `longest` events at the end.
pub fn all(longest: usize) {
    let rows = tables();
    println!();
    events::growth_with_nodes();
    println!();
    events::growth_with_length(longest);
    println!();
    rows.print_largest();
}

/// All rows with a ratio to be held against the target, which go to a file too.
pub fn rows(file: &str) {
    tables().write(file);
}

/// Prints the tables whose ratios are held against the target, and answers their rows.
fn tables() -> Rows {
    println!("{}", machine::line());
    println!(
        "processor time of the thread, best of {RUNS} or more runs of each side at each of {PLACES} places of the \
         stack, in turn for {SECONDS} s or more, the best of {LEFT_OUT} left out"
    );
    println!("ratio = proved / plain, each at its best place; worst = the largest proved / plain at one place");
    let tables: [fn(&mut Rows); 7] = [
        events::by_nodes,
        values::deliveries,
        node::calls,
        frame::frames,
        codec::messages,
        views::figures,
        views::pages,
    ];
    let mut rows = Rows::default();
    for table in tables {
        println!();
        table(&mut rows);
    }
    rows
}

/// Runs one side alone, for a profiler.
pub fn replay(side: &str, n: usize, count: usize) {
    events::replay(side, n, count);
}
