//! Values that are new to the node that they come to, so that it forwards them to all.
use super::events::{apply_all, NONE};
use super::nodes;
use crate::clock::seconds;
use crate::network::{Input, Lent};
use crate::plain::bytes::put_word;
use crate::plain::record::MAXTAG;
use crate::rows::Rows;
use crate::side::{Event, Plain, Proved, Side, View};
use crate::times::Times;
use crate::workload::waiting;

/// Of how many nodes the values are delivered at most: the channels hold no more once each is forwarded. With sixteen
/// nodes some channels come to hold more than ten messages.
const WRITERS: usize = 14;

/// How many deliveries there are in a run at most, and between two readings of the clock at least: with one node, whose
/// cluster has one value, in as many clusters.
const DELIVERIES: usize = 500;
const AT_ONCE: usize = 8;

/// A tag above all that the workloads come to.
pub const HIGH: u64 = 1 << 40;

/// A message of n nodes with request number 1.
pub fn message(n: usize, kind: u64, writer: usize, tag: u64) -> Vec<u8> {
    let (mut bytes, mut length) = (vec![0; 274], 0);
    let code = Plain::write(n, &[kind, 1, writer as u64, tag], &tag.to_be_bytes(), &[], &mut bytes, &mut length);
    assert_eq!(code, 0, "no message");
    bytes.truncate(length);
    bytes
}

/// Values of all nodes in turn, each new to the node with this record. Its top tag is set above theirs: a writer's
/// value can come only when the one before it is not above the top tag.
pub fn new_values(n: usize, count: usize, record: &mut [u8]) -> Vec<Vec<u8>> {
    put_word(record, MAXTAG, 2 * HIGH);
    (0..count).map(|i| message(n, 6, i % n + 1, HIGH + i as u64)).collect()
}

/// Both sides must do the same with the inputs in turn, from the record that is their start, and forward each as it
/// came.
pub fn check_forwarded(start: &[u8], inputs: &[Input]) {
    let (mut proved, mut plain) = (start.to_vec(), start.to_vec());
    for input in inputs {
        let (Input::Message { bytes, .. } | Input::Frame { bytes, .. }) = input else { panic!("no value") };
        let (mut one, mut two) = (Lent::new(input.room()), Lent::new(input.room()));
        let told = (input.give::<Proved>(&mut proved, &mut one), input.give::<Plain>(&mut plain, &mut two));
        assert!(told == (0, 0) && one == two && proved == plain, "the sides differ");
        assert!(one.out[..one.length] == bytes[..], "not every value was new");
    }
}

/// All messages on all channels of a cluster.
fn all_waiting(n: usize, bytes: &[u8]) -> usize {
    (0..n * n).map(|i| usize::from(waiting(bytes, i / n + 1, i % n + 1))).sum()
}

/// Values that wait in a cluster: its bytes, the deliveries of the values, and its bytes after them.
struct Sent {
    start: Vec<u8>,
    values: Vec<Event>,
    end: Vec<u8>,
}

/// Each node has begun an update and sent its value to all.
fn sent_values(n: usize) -> Sent {
    let from_each = |i| Event::Deliver { from: i / n + 1, to: i % n + 1, cut: None };
    let begins = (1..=n).map(|node| Event::Update { node, report: [node as u8; 8], cut: None });
    // One message of each channel is a read, the next its answer.
    let reads_and_answers = (0..2 * n * n).map(|i| from_each(i % (n * n)));
    let values: Vec<Event> = (0..n * n.min(WRITERS)).map(from_each).collect();
    let (mut start, mut view) = (vec![0; Plain::size(n)], [0; 256]);
    Plain::fresh(n, Plain::most_faults(n), &mut start);
    for event in begins.chain(reads_and_answers) {
        assert_eq!(Plain::apply(&mut start, &event, &mut view), 0, "no values");
    }
    let mut end = start.clone();
    apply_all::<Plain>(&mut end, &values, &mut view);
    assert_eq!(all_waiting(n, &end), all_waiting(n, &start) + values.len() * (n - 1), "not every value was new");
    Sent { start, values, end }
}

/// Clusters, and the view that is lent beside them.
type Clusters = (Vec<Vec<u8>>, View);

/// The deliveries in each cluster, so many times from the same start. An event that is refused goes before them: it
/// judges every record, and so brings it into the cache.
fn run_again<S: Side>((clusters, view): &mut Clusters, sent: &Sent, times: usize) -> f64 {
    let once = |_| {
        for bytes in &mut *clusters {
            bytes.copy_from_slice(&sent.start);
            S::apply(bytes, &NONE, view);
        }
        seconds(|| clusters.iter_mut().for_each(|bytes| apply_all::<S>(bytes, &sent.values, view)))
    };
    let time = (0..times).map(once).sum();
    assert!(clusters.iter().all(|bytes| *bytes == sent.end), "the sides differ");
    time
}

/// Prints deliveries per second. With one node it is its own value that comes back to it, and is forwarded to itself.
pub fn deliveries(rows: &mut Rows) {
    println!("deliveries of new values per second, by nodes");
    println!("{:>6} {:>12} {:>12} {:>8} {:>8}", "nodes", "proved", "plain", "ratio", "worst");
    for n in [1, 3, 5, 16] {
        let sent = sent_values(n);
        let clusters = AT_ONCE.div_ceil(sent.values.len());
        let at_once = clusters * sent.values.len();
        let times = DELIVERIES / at_once;
        let t = Times::of(
            &mut (vec![sent.start.clone(); clusters], [0; 256]),
            |clusters, _| run_again::<Proved>(clusters, &sent, times),
            |clusters, _| run_again::<Plain>(clusters, &sent, times),
        );
        let count = (times * at_once) as f64;
        println!("{n:>6} {:>12.0} {:>12.0} {t}", count / t.proved(), count / t.other());
        rows.add("events, new values", &nodes(n), &t);
    }
}
