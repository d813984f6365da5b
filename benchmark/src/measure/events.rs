//! Events of a cluster: by the number of nodes, and by the length of the session.
use super::nodes;
use crate::clock::seconds;
use crate::rows::Rows;
use crate::side::{Event, Plain, Proved, Side, View};
use crate::times::Times;
use crate::workload::{Order, Workload};
use std::hint::black_box;

/// No event: every cluster refuses it.
pub const NONE: Event = Event::Stop { node: 0 };

pub fn apply_all<S: Side>(bytes: &mut [u8], events: &[Event], view: &mut View) {
    for event in events {
        black_box(S::apply(bytes, event, view));
    }
}

fn run<S: Side>(bytes: &mut [u8], events: &[Event], view: &mut View) -> f64 {
    seconds(|| apply_all::<S>(bytes, events, view))
}

/// A cluster, and the view that is lent beside it.
type Cluster = (Vec<u8>, View);

/// The events from the bytes that are their start, which must come to those that are their end.
fn run_from<S: Side>((bytes, view): &mut Cluster, start: &[u8], events: &[Event], end: &[u8]) -> f64 {
    bytes.copy_from_slice(start);
    let time = run::<S>(bytes, events, view);
    assert!(bytes == end, "the sides differ");
    time
}

/// The times of the same events from the same bytes on both sides.
fn time_events(n: usize, order: Order, seed: u64, count: usize) -> Times {
    let mut workload = Workload::new(n, order, seed);
    let mut events = vec![NONE; count];
    workload.fill(&mut events);
    let start = workload.bytes().to_vec();
    workload.fill(&mut events);
    let end = workload.bytes();
    Times::of(
        &mut (start.clone(), [0; 256]),
        |cluster, _| run_from::<Proved>(cluster, &start, &events, end),
        |cluster, _| run_from::<Plain>(cluster, &start, &events, end),
    )
}

/// Prints events per second.
pub fn by_nodes(rows: &mut Rows) {
    println!("events per second, by nodes and order of delivery");
    println!("{:>6} {:>12} {:>12} {:>12} {:>8} {:>8}", "nodes", "order", "proved", "plain", "ratio", "worst");
    let count = 2000;
    for n in [1, 3, 5, 16] {
        for (order, name) in [(Order::Random, "random"), (Order::RoundRobin, "round robin")] {
            let t = time_events(n, order, 7, count);
            let (proved, plain) = (count as f64 / t.proved(), count as f64 / t.other());
            println!("{n:>6} {name:>12} {proved:>12.0} {plain:>12.0} {t}");
            rows.add("events", &format!("{}, {name}", nodes(n)), &t);
        }
    }
}

pub fn growth_with_nodes() {
    println!("nanoseconds per event as the nodes grow, random order");
    println!("{:>6} {:>12} {:>12} {:>8} {:>8}", "nodes", "proved", "plain", "ratio", "worst");
    let count = 1000;
    for n in 1..=16 {
        let t = time_events(n, Order::Random, 11, count);
        let each = 1e9 / count as f64;
        println!("{n:>6} {:>12.0} {:>12.0} {t}", t.proved() * each, t.other() * each);
    }
}

/// Resident memory of this process, in KiB.
fn resident() -> u64 {
    let status = std::fs::read_to_string("/proc/self/status").unwrap_or_default();
    let line = status.lines().find(|l| l.starts_with("VmRSS:")).unwrap_or("");
    line.split_whitespace().nth(1).and_then(|w| w.parse().ok()).unwrap_or(0)
}

/// The lots of a session whose times are kept.
const LOTS: usize = 1000;

/// The times of the last lots.
struct Lots {
    times: Vec<f64>,
    count: usize,
}

impl Lots {
    fn new() -> Lots {
        Lots { times: vec![1.0; LOTS], count: 0 }
    }

    fn add(&mut self, time: f64) {
        self.times[self.count % LOTS] = time;
        self.count += 1;
    }

    fn median(&mut self) -> f64 {
        let kept = &mut self.times[..self.count.min(LOTS)];
        kept.sort_unstable_by(f64::total_cmp);
        kept[kept.len() / 2]
    }
}

/// One session of three nodes. Its events are chosen in lots, and each lot runs on both sides before the next. All
/// memory of the benchmark itself is in use from the start.
pub fn growth_with_length(longest: usize) {
    println!("one session of three nodes, random order: nanoseconds per event (median of the last lots), memory");
    println!("{:>10} {:>12} {:>12} {:>8} {:>14}", "events", "proved", "plain", "ratio", "resident KiB");
    let mut workload = Workload::new(3, Order::Random, 5);
    let (mut one, mut two) = (workload.bytes().to_vec(), workload.bytes().to_vec());
    let mut view = [0; 256];
    let mut events = vec![NONE; 1000];
    let (mut proved, mut plain) = (Lots::new(), Lots::new());
    let (mut done, mut mark) = (0, 1000);
    while done < longest {
        while done < mark {
            workload.fill(&mut events);
            proved.add(run::<Proved>(&mut one, &events, &mut view));
            plain.add(run::<Plain>(&mut two, &events, &mut view));
            assert!(one == two, "the sides differ");
            done += events.len();
        }
        let each = 1e9 / events.len() as f64;
        let (proved, plain) = (proved.median() * each, plain.median() * each);
        println!("{done:>10} {proved:>12.0} {plain:>12.0} {:>8.2} {:>14}", proved / plain, resident());
        mark *= 10;
    }
}

/// Runs one side alone.
pub fn replay(side: &str, n: usize, count: usize) {
    let mut workload = Workload::new(n, Order::Random, 7);
    let (mut bytes, mut view) = (workload.bytes().to_vec(), [0; 256]);
    let mut events = vec![NONE; count];
    workload.fill(&mut events);
    let time = match side {
        "proved" => run::<Proved>(&mut bytes, &events, &mut view),
        _ => run::<Plain>(&mut bytes, &events, &mut view),
    };
    println!("{:.0} ns per event", time * 1e9 / count as f64);
}
