//! Frames: several messages handed over by one call do what they do one by one, or nothing at all.
use snapshot::{
    lent, Ending, Message, Node, Operation, Output, Refusal, Report, Rule, To, FRAME, FRAME_OUTPUT, LONGEST, OUTPUT,
    RECORD, VIEW,
};
use std::collections::VecDeque;

const N: usize = 3;
const F: usize = 1;
const REPORT: Report = Report { extensions: 1, lines: 2, waiting: 3, wakeups: 4 };

fn written(message: Message) -> Vec<u8> {
    let mut bytes = [0; LONGEST];
    let length = message.write(N, &[0; 16 * N], &mut bytes).unwrap();
    bytes[..length].to_vec()
}

fn read(request: u64) -> Vec<u8> {
    written(Message::Read { request })
}

fn reads(times: u64) -> Vec<u8> {
    (1..=times).flat_map(read).collect()
}

fn value(writer: usize, tag: u64) -> Vec<u8> {
    written(Message::Value { tag, writer, report: REPORT })
}

/// Hands the messages over in a frame, and one by one to a node with the same record: both do the same.
fn handed(node: &mut Node, sender: usize, messages: &[Vec<u8>], out: &mut Output) -> Option<Ending> {
    let mut other = Node::from_bytes(node.as_bytes()).unwrap();
    let (mut one, mut sent, mut endings) = (Output::new(), Vec::new(), Vec::new());
    for bytes in messages {
        endings.extend(other.message(sender, bytes, &mut one).unwrap());
        sent.extend_from_slice(one.as_bytes());
    }
    let told = node.frame(sender, &messages.concat(), out).unwrap();
    assert!(node.as_bytes() == other.as_bytes());
    assert_eq!(out.as_bytes(), sent);
    assert_eq!(Vec::from_iter(told), endings);
    told
}

#[test]
fn one_message_of_each_kind() {
    let (request, tag) = (1, 1);
    for message in [
        Message::Read { request },
        Message::ReadAnswer { request, tag },
        Message::Write { request, tag },
        Message::WriteAnswer { request, tag },
        Message::Echo { tag },
        Message::Value { tag, writer: 2, report: REPORT },
        Message::Good { tag },
    ] {
        let mut node = Node::fresh(N, F, 1).unwrap();
        assert_eq!(handed(&mut node, 2, &[written(message)], &mut Output::new()), None);
    }
}

/// Begins the operation at node `own`, then hands frames over until nothing waits: what waits on a link, or as much of
/// it as a frame takes and `most` allows. Answers how the operation ended.
fn run(nodes: &mut [Node], own: usize, operation: Operation, most: usize) -> Option<Ending> {
    let mut links: [[VecDeque<Vec<u8>>; N]; N] = Default::default();
    let (mut out, mut told) = (Output::new(), None);
    nodes[own - 1].begin(operation, &mut out).unwrap();
    let (mut from, mut to) = (own, own);
    loop {
        for (bytes, route) in &out {
            let receivers = if route == To::All { 1..=N } else { from..=from };
            receivers.for_each(|k| links[to - 1][k - 1].push_back(bytes.to_vec()));
        }
        let mut all = (1..=N).flat_map(|from| (1..=N).map(move |to| (from, to)));
        let Some(next) = all.find(|&(from, to)| !links[from - 1][to - 1].is_empty()) else { return told };
        (from, to) = next;
        let link = &mut links[from - 1][to - 1];
        let mut length = 0;
        let fits = |bytes: &&Vec<u8>| {
            length += bytes.len();
            length <= FRAME
        };
        let count = link.iter().take(most).take_while(fits).count();
        let frame: Vec<_> = link.drain(..count).collect();
        told = told.or(handed(&mut nodes[to - 1], from, &frame, &mut out));
    }
}

#[test]
fn a_house_on_links_that_pack() {
    for most in [1, 2, 3, usize::MAX] {
        let mut nodes: Vec<_> = (1..=N).map(|own| Node::fresh(N, F, own).unwrap()).collect();
        assert!(matches!(run(&mut nodes, 1, Operation::Update(REPORT), most), Some(Ending::Done(_))));
        let Some(Ending::Scan(_, view)) = run(&mut nodes, 2, Operation::Scan, most) else { panic!("no view") };
        assert_eq!(view.entry(1).map(|entry| entry.report), Some(REPORT));
    }
}

/// Node 1 of three with a scan that a write answer of node 2, to request 2 with tag 1, will end.
fn scanning() -> Node {
    let (mut node, mut out) = (Node::fresh(N, F, 1).unwrap(), Output::new());
    handed(&mut node, 2, &[value(2, 1)], &mut out);
    handed(&mut node, 1, &[value(2, 1)], &mut out);
    node.begin(Operation::Scan, &mut out).unwrap();
    let read_answer = |tag| written(Message::ReadAnswer { request: 1, tag });
    handed(&mut node, 1, &[read(1), read_answer(0)], &mut out);
    handed(&mut node, 2, &[read_answer(1)], &mut out);
    handed(&mut node, 1, &[written(Message::Write { request: 2, tag: 1 }), write_answer()], &mut out);
    node
}

fn write_answer() -> Vec<u8> {
    written(Message::WriteAnswer { request: 2, tag: 1 })
}

/// The second message of four ends a scan; those after it are handled, and what all of them send goes out.
#[test]
fn an_ending_in_the_middle() {
    let (mut node, mut out) = (scanning(), Output::new());
    let told = handed(&mut node, 2, &[read(1), write_answer(), value(2, 2), read(2)], &mut out);
    let Some(Ending::Scan(Rule::Direct(1), view)) = told else { panic!("{told:?}") };
    assert_eq!(view.entry(2).map(|entry| (entry.tag, entry.report)), Some((1, REPORT)));
    let kinds: Vec<u8> = out.messages().map(|(bytes, _)| bytes[3]).collect();
    assert_eq!(kinds, [2, 7, 6, 2]);
}

/// What is lent to a call and may be written: a new one is a node that has heard value 5 of node 2.
#[derive(Clone, PartialEq)]
struct Lent {
    record: Vec<u8>,
    out: Vec<u8>,
    length: usize,
    view: [u8; VIEW],
}

impl Lent {
    fn new() -> Lent {
        let mut node = Node::fresh(N, F, 1).unwrap();
        node.message(2, &value(2, 5), &mut Output::new()).unwrap();
        Lent::of(&node)
    }

    fn of(node: &Node) -> Lent {
        Lent { record: node.as_bytes().to_vec(), out: vec![7; FRAME_OUTPUT], length: 7, view: [7; VIEW] }
    }

    /// Hands a frame over, and looks that a refusal leaves all as it was.
    fn frame(&mut self, sender: usize, frame: &[u8]) -> u8 {
        let before = self.clone();
        let code = lent::node_frame(&mut self.record, sender, frame, &mut self.out, &mut self.length, &mut self.view);
        assert!(Refusal::from_number(code).is_none() || *self == before);
        code
    }
}

#[test]
fn a_hundred_reads() {
    let mut lent = Lent::new();
    assert_eq!(reads(100).len(), FRAME);
    assert_eq!(lent.frame(2, &reads(100)), 0);
    assert_eq!(lent.length, 2600);
    assert!(lent.out[lent.length..].iter().chain(&lent.view).all(|&x| x == 7));
}

#[test]
fn lengths() {
    assert_eq!(Lent::new().frame(2, &[]), 14);
    assert_eq!(Lent::new().frame(2, &reads(101)[..FRAME - 1]), 7);
    assert_eq!(Lent::new().frame(2, &reads(101)[..FRAME]), 0);
    assert_eq!(Lent::new().frame(2, &reads(101)[..FRAME + 1]), 14);
    assert_eq!(Lent::new().frame(2, &vec![0; 1 << 20]), 14);
    for (held, room, code) in [
        (RECORD, 0, 12),
        (RECORD, OUTPUT, 12),
        (RECORD, FRAME_OUTPUT - 1, 12),
        (0, FRAME_OUTPUT, 12),
        (RECORD - 1, FRAME_OUTPUT, 12),
        (RECORD + 1, FRAME_OUTPUT, 12),
        (RECORD, FRAME_OUTPUT + 1, 0),
    ] {
        let mut lent = Lent::new();
        lent.record.resize(held, 0);
        lent.out.resize(room, 7);
        assert_eq!(lent.frame(2, &reads(1)), code, "{held} bytes of a record, {room} of an output");
    }
}

#[test]
fn a_fault_late_in_a_frame() {
    let older = value(2, 4);
    assert_eq!(Lent::new().frame(2, &[reads(98), older.clone()].concat()), 9);
    assert_eq!(Lent::new().frame(2, &[reads(98), older[..29].to_vec()].concat()), 7);
    assert_eq!(Lent::new().frame(2, &[&older[..], &reads(97), &[0]].concat()), 7);
    let ended = [write_answer(), value(2, 2)];
    assert_eq!(Lent::of(&scanning()).frame(2, &ended.concat()), 111);
    assert_eq!(Lent::of(&scanning()).frame(2, &[ended.concat(), value(2, 1)].concat()), 9);
    let mut node = Node::fresh(N, F, 1).unwrap();
    let (before, mut out) = (*node.as_bytes(), Output::new());
    assert_eq!(node.frame(2, &[value(2, 5), older].concat(), &mut out), Err(Refusal::Value));
    assert!(*node.as_bytes() == before && out.as_bytes().is_empty());
}

/// A value is judged on the record as the messages before it have left it.
#[test]
fn values_are_judged_in_turn() {
    let echo = written(Message::Echo { tag: 5 });
    for (frame, code) in [
        (vec![value(3, 4)], 0),
        (vec![value(3, 5)], 0),
        (vec![value(3, 5), value(3, 4)], 9),
        (vec![value(3, 4), value(3, 5)], 9),
        (vec![value(2, 6)], 9),
        (vec![echo, value(2, 6)], 0),
    ] {
        assert_eq!(Lent::new().frame(2, &frame.concat()), code);
    }
}

/// Of every set of faults the first in the order is answered.
#[test]
fn the_order_of_refusals() {
    let order = [12, 2, 3, 14, 7, 9];
    for set in 1..1 << order.len() {
        let has = |code| order.iter().position(|&other| other == code).is_some_and(|i| set >> i & 1 == 1);
        let mut lent = Lent::new();
        lent.out.truncate(FRAME_OUTPUT - usize::from(has(12)));
        lent.record[7] = if has(2) { 17 } else { 3 };
        let sender = if has(3) { 4 } else { 2 };
        let mut frame = [value(2, if has(9) { 4 } else { 5 }), reads(if has(14) { 99 } else { 98 })].concat();
        frame.truncate(frame.len() - usize::from(has(7)));
        let first = order.into_iter().find(|&code| has(code));
        assert_eq!(Some(lent.frame(sender, &frame)), first, "faults {set:06b}");
    }
}
