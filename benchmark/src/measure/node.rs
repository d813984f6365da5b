//! One node: a begin, a stream of messages, and one of new values.
use super::values::{check_forwarded, new_values};
use super::{give_all_to, node_and_end, nodes};
use crate::clock::seconds;
use crate::network::{Input, Lent, Network, Packing};
use crate::rows::Rows;
use crate::side::{is_refusal, Plain, Proved, Side};
use crate::times::Times;
use std::hint::black_box;

/// How much of a stream is kept.
const INPUTS: usize = 2000;
const BEGINS: usize = 100;

/// What node 1 of a network is given from some time on, and its record at that time and at each of its begins.
struct Stream {
    start: Vec<u8>,
    inputs: Vec<Input>,
    begins: Vec<(Vec<u8>, Input)>,
}

fn stream(n: usize) -> Stream {
    let mut network = Network::new(n, Plain::most_faults(n), 13, Packing::Single);
    for _ in 0..100 * n {
        network.step(|_, input, record, lent| input.give::<Plain>(record, lent));
    }
    let mut stream = Stream { start: network.records[0].clone(), inputs: Vec::new(), begins: Vec::new() };
    while stream.inputs.len() < INPUTS || stream.begins.len() < BEGINS {
        network.step(|node, input, record, lent| {
            let before = record.to_vec();
            let code = input.give::<Plain>(record, lent);
            if node == 1 && !is_refusal(code) {
                if let Input::Begin(_) = input {
                    stream.begins.push((before, input.clone()));
                }
                stream.inputs.push(input.clone());
            }
            code
        });
    }
    stream.inputs.truncate(INPUTS);
    stream.begins.truncate(BEGINS);
    stream
}

/// Makes the stream one of new values, each from its writer.
fn only_values(n: usize, stream: &mut Stream) {
    let values = new_values(n, INPUTS, &mut stream.start);
    let senders = (1..=n).cycle();
    stream.inputs = senders.zip(values).map(|(sender, bytes)| Input::Message { sender, bytes }).collect();
    check_forwarded(&stream.start, &stream.inputs);
}

fn time_inputs(stream: &Stream) -> Times {
    let Stream { start, inputs, .. } = stream;
    let (mut node, end) = node_and_end(start, inputs, 512);
    Times::of(
        &mut node,
        |node, _| give_all_to::<Proved>(node, start, inputs, &end),
        |node, _| give_all_to::<Plain>(node, start, inputs, &end),
    )
}

/// Each begin on the record of its own that it came upon.
fn run_begins<S: Side>((records, lent): &mut (Vec<Vec<u8>>, Lent), begins: &[(Vec<u8>, Input)]) -> f64 {
    records.iter_mut().zip(begins).for_each(|(record, (before, _))| record.copy_from_slice(before));
    seconds(|| {
        for (record, (_, input)) in records.iter_mut().zip(begins) {
            black_box(input.give::<S>(record, lent));
            black_box(&*lent);
        }
    })
}

fn time_begins(begins: &[(Vec<u8>, Input)]) -> Times {
    let records = begins.iter().map(|(before, _)| before.clone()).collect();
    Times::of(
        &mut (records, Lent::new(512)),
        |lent, _| run_begins::<Proved>(lent, begins),
        |lent, _| run_begins::<Plain>(lent, begins),
    )
}

/// Prints nanoseconds per call.
pub fn calls(rows: &mut Rows) {
    println!(
        "one node: begin, message and new value, nanoseconds per call (messages: a stream of them, with its begins)"
    );
    println!("{:>6} {:>12} {:>12} {:>12} {:>8} {:>8}", "nodes", "", "proved", "plain", "ratio", "worst");
    for n in [1, 3, 5, 16] {
        let mut stream = stream(n);
        let begins = time_begins(&stream.begins);
        let messages = time_inputs(&stream);
        only_values(n, &mut stream);
        let values = time_inputs(&stream);
        for (group, name, count, t) in [
            ("one node", "begin", BEGINS, begins),
            ("one node", "message", INPUTS, messages),
            ("one node, new values", "new value", INPUTS, values),
        ] {
            let each = 1e9 / count as f64;
            println!("{n:>6} {name:>12} {:>12.0} {:>12.0} {t}", t.proved() * each, t.other() * each);
            rows.add(group, &format!("{}, {name}", nodes(n)), &t);
        }
    }
}
