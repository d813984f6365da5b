//! Each refusal that a user can meet, at a node and in a cluster, by its condition; and that it leaves all as it was.
use snapshot::{
    lent, most_faults, Cluster, Ending, Extent, Message, Node, Operation, Output, Refusal, Report, FRAME, LONGEST,
    OUTPUT, RECORD, VIEW,
};
use std::fmt::Debug;

const WHOLE: Extent = Extent::Whole;
const UPDATE: Operation = Operation::Update(Report { extensions: 1, lines: 2, waiting: 3, wakeups: 4 });

/// Where f and the last request number stand in a record.
const FAULTS: usize = 8;
const REQUEST: usize = 32;

fn written(n: usize, message: Message) -> Vec<u8> {
    let mut bytes = [0; LONGEST];
    let length = message.write(n, &[], &mut bytes).unwrap();
    bytes[..length].to_vec()
}

fn value(n: usize, tag: u64, writer: usize) -> Vec<u8> {
    written(n, Message::Value { tag, writer, report: Report::default() })
}

/// A call at a node is refused, its record stays as it was, and there is nothing to send.
fn refused_at<T: Debug>(node: &mut Node, call: impl FnOnce(&mut Node, &mut Output) -> Result<T, Refusal>) -> Refusal {
    let mut out = Output::new();
    Node::fresh(1, 0, 1).unwrap().begin(UPDATE, &mut out).unwrap();
    let before = *node.as_bytes();
    let refusal = call(node, &mut out).expect_err("a refusal");
    assert!(*node.as_bytes() == before);
    assert_eq!(out.messages().count(), 0);
    refusal
}

/// A call in a cluster is refused, and its bytes stay as they were.
fn refused_in<T: Debug>(cluster: &mut Cluster, call: impl FnOnce(&mut Cluster) -> Result<T, Refusal>) -> Refusal {
    let before = cluster.as_bytes().to_vec();
    let refusal = call(cluster).expect_err("a refusal");
    assert!(cluster.as_bytes() == before);
    refusal
}

#[test]
fn numbers_of_nodes() {
    for (n, own) in [(0, 0), (0, 1), (17, 1), (3, 0), (3, 4), (usize::MAX, 1), (1, usize::MAX)] {
        assert_eq!(Node::fresh(n, 0, own).err(), Some(Refusal::Size));
    }
    for n in [0, 17, usize::MAX] {
        assert_eq!(Cluster::fresh(n, 0).err(), Some(Refusal::Size));
        assert_eq!(Cluster::fresh(n, most_faults(n)).err(), Some(Refusal::Size));
    }
    for n in 1..=16 {
        assert!(Node::fresh(n, 0, n).is_ok() && Cluster::fresh(n, 0).is_ok());
    }
}

#[test]
fn numbers_of_nodes_that_may_stop() {
    for n in 1..=16 {
        assert_eq!(most_faults(n), (n - 1) / 2);
        for f in (0..=16).chain([1 << 62, (1 << 63) - 1, 1 << 63, (1 << 63) + 1, usize::MAX]) {
            let refusal = (f >= n.div_ceil(2)).then_some(Refusal::Size);
            assert_eq!(Node::fresh(n, f, 1).err(), refusal, "f = {f} for {n} nodes");
            assert_eq!(Cluster::fresh(n, f).err(), refusal, "f = {f} for {n} nodes");
        }
    }
    assert_eq!([14, 15, 16].map(|n| Cluster::fresh(n, 7).is_ok()), [false, true, true]);
    assert_eq!([0, 17, usize::MAX].map(most_faults), [0, 8, usize::MAX / 2]);

    let (mut record, mut cluster) = ([7; RECORD], vec![7; lent::size(3)]);
    for f in [2, 7, 8, 1 << 63, usize::MAX] {
        assert_eq!([lent::node_fresh(3, f, 1, &mut record), lent::fresh(3, f, &mut cluster)], [1, 1]);
        assert_eq!([lent::node_fresh(3, f, 1, &mut []), lent::fresh(3, f, &mut [])], [1, 1]);
    }
    assert!(record.iter().chain(&cluster).all(|&x| x == 7), "a refusal has written");
    assert_eq!([lent::node_fresh(3, 1, 1, &mut record), lent::fresh(3, 1, &mut cluster)], [0, 0]);
}

#[test]
fn bytes_of_a_wrong_length() {
    let record = Node::fresh(3, 1, 1).unwrap().as_bytes().to_vec();
    assert!(Node::from_bytes(&record).is_ok());
    for length in [0, 1, record.len() - 1] {
        assert_eq!(Node::from_bytes(&record[..length]).err(), Some(Refusal::Length));
    }
    let bytes = Cluster::fresh(2, 0).unwrap().as_bytes().to_vec();
    for length in [0, 1, bytes.len() - 1] {
        let mut cluster = Cluster::from_bytes(bytes[..length].to_vec());
        assert_eq!(refused_in(&mut cluster, |c| c.begin(1, UPDATE, WHOLE)), Refusal::Length);
        assert_eq!(refused_in(&mut cluster, |c| c.deliver(1, 1, WHOLE)), Refusal::Length);
        assert_eq!(refused_in(&mut cluster, |c| c.stop(1)), Refusal::Length);
    }
}

/// Each call of a node refuses this record.
fn unusable_at(record: &[u8]) {
    let mut node = Node::from_bytes(record).unwrap();
    assert_eq!(refused_at(&mut node, |node, out| node.begin(UPDATE, out)), Refusal::Unusable);
    assert_eq!(refused_at(&mut node, |node, out| node.begin(Operation::Scan, out)), Refusal::Unusable);
    assert_eq!(refused_at(&mut node, |node, out| node.message(1, &value(3, 1, 1), out)), Refusal::Unusable);
    assert_eq!(refused_at(&mut node, |node, out| node.frame(1, &value(3, 1, 1), out)), Refusal::Unusable);
}

/// Each call of a cluster refuses this one.
fn unusable_in(mut cluster: Cluster) {
    assert_eq!(refused_in(&mut cluster, |c| c.begin(1, UPDATE, WHOLE)), Refusal::Unusable);
    assert_eq!(refused_in(&mut cluster, |c| c.begin(1, Operation::Scan, WHOLE)), Refusal::Unusable);
    assert_eq!(refused_in(&mut cluster, |c| c.deliver(1, 1, WHOLE)), Refusal::Unusable);
    assert_eq!(refused_in(&mut cluster, |c| c.stop(1)), Refusal::Unusable);
}

#[test]
fn bytes_that_cannot_be_used() {
    let mut record = *Node::fresh(3, 1, 1).unwrap().as_bytes();
    record[7] = 17;
    unusable_at(&record);
    let mut bytes = Cluster::fresh(2, 0).unwrap().as_bytes().to_vec();
    bytes[0] = 17;
    unusable_in(Cluster::from_bytes(bytes));
}

/// The record with another f.
fn record_with(f: u64, mut record: [u8; RECORD]) -> [u8; RECORD] {
    record[FAULTS..FAULTS + 8].copy_from_slice(&f.to_be_bytes());
    record
}

/// A cluster of three nodes as one with f = 1 leaves it, in which the cluster and the record of each node have these.
fn cluster_with(stated: u8, recorded: [u64; 3], mut cluster: Cluster) -> Cluster {
    for (own, f) in (1..).zip(recorded) {
        let record = *Node::fresh(3, 1, own).unwrap().as_bytes();
        cluster = replaced(&cluster, &record, &record_with(f, record));
    }
    let mut bytes = cluster.as_bytes().to_vec();
    assert_eq!(bytes[..2], [3, 1]);
    bytes[1] = stated;
    Cluster::from_bytes(bytes)
}

#[test]
fn an_f_that_cannot_be_used() {
    let record = *Node::fresh(3, 1, 1).unwrap().as_bytes();
    for f in [2, 3, 7, 8, 256, 1 << 32, 1 << 63, u64::MAX] {
        unusable_at(&record_with(f, record));
        unusable_in(cluster_with(f as u8, [f; 3], Cluster::fresh(3, 1).unwrap()));
    }
    assert_eq!(Node::from_bytes(&record_with(0, record)).unwrap().begin(UPDATE, &mut Output::new()), Ok(()));
}

#[test]
fn an_f_that_differs() {
    let others = [(0, [1; 3]), (1, [0; 3]), (1, [0, 1, 1]), (1, [1, 0, 1]), (1, [1, 1, 0]), (0, [0, 0, 1])];
    for (stated, recorded) in others {
        unusable_in(cluster_with(stated, recorded, Cluster::fresh(3, 1).unwrap()));
    }
    for f in [0, 1] {
        let mut cluster = cluster_with(f, [f.into(); 3], Cluster::fresh(3, 1).unwrap());
        assert!(cluster.as_bytes() == Cluster::fresh(3, f.into()).unwrap().as_bytes());
        assert_eq!(cluster.begin(1, UPDATE, WHOLE), Ok(()));
    }
}

#[test]
fn stops_go_by_the_recorded_f() {
    for f in 0..=2 {
        let mut cluster = Cluster::fresh(5, f).unwrap();
        for node in 1..=f {
            assert_eq!(cluster.stop(node), Ok(()));
        }
        assert_eq!(refused_in(&mut cluster, |c| c.stop(f + 1)), Refusal::Stops);
        assert_eq!(refused_in(&mut cluster, |c| c.begin(5, UPDATE, Extent::Cut(1))), Refusal::Stops);
        cluster.begin(5, UPDATE, WHOLE).unwrap();
        assert_eq!(refused_in(&mut cluster, |c| c.deliver(5, 5, Extent::Cut(0))), Refusal::Stops);
    }
    let mut cluster = Cluster::fresh(3, 1).unwrap();
    cluster.stop(2).unwrap();
    unusable_in(cluster_with(0, [0; 3], cluster));
}

/// The answers to a read give rise to a write, once there are n − f of them.
#[test]
fn a_quorum_goes_by_the_recorded_f() {
    for n in 1..=16 {
        for f in 0..=most_faults(n) {
            let (mut node, mut out) = (Node::fresh(n, f, 1).unwrap(), Output::new());
            node.begin(Operation::Scan, &mut out).unwrap();
            let answer = written(n, Message::ReadAnswer { request: 1, tag: 0 });
            let last = (1..=n).find(|&sender| {
                node.message(sender, &answer, &mut out).unwrap();
                out.messages().count() > 0
            });
            assert_eq!(last, Some(n - f), "f = {f} for {n} nodes");
        }
    }
}

#[test]
fn nodes_that_are_not_there() {
    let mut node = Node::fresh(3, 1, 1).unwrap();
    let mut cluster = Cluster::fresh(3, 1).unwrap();
    for k in [0, 4, 17, usize::MAX] {
        assert_eq!(refused_at(&mut node, |node, out| node.message(k, &value(3, 1, 1), out)), Refusal::Node);
        assert_eq!(refused_at(&mut node, |node, out| node.frame(k, &value(3, 1, 1), out)), Refusal::Node);
        assert_eq!(refused_in(&mut cluster, |c| c.begin(k, Operation::Scan, WHOLE)), Refusal::Node);
        assert_eq!(refused_in(&mut cluster, |c| c.deliver(k, 1, WHOLE)), Refusal::Node);
        assert_eq!(refused_in(&mut cluster, |c| c.deliver(1, k, WHOLE)), Refusal::Node);
        assert_eq!(refused_in(&mut cluster, |c| c.stop(k)), Refusal::Node);
    }
}

#[test]
fn stops() {
    let mut cluster = Cluster::fresh(3, 1).unwrap();
    cluster.stop(2).unwrap();
    assert_eq!(refused_in(&mut cluster, |c| c.begin(2, UPDATE, WHOLE)), Refusal::Stopped);
    assert_eq!(refused_in(&mut cluster, |c| c.deliver(1, 2, WHOLE)), Refusal::Stopped);
    assert_eq!(refused_in(&mut cluster, |c| c.stop(2)), Refusal::Stopped);
    assert_eq!(refused_in(&mut cluster, |c| c.stop(3)), Refusal::Stops);
    assert_eq!(refused_in(&mut cluster, |c| c.begin(1, UPDATE, Extent::Cut(1))), Refusal::Stops);
    cluster.begin(1, UPDATE, WHOLE).unwrap();
    assert_eq!(refused_in(&mut cluster, |c| c.deliver(1, 3, Extent::Cut(0))), Refusal::Stops);
}

#[test]
fn a_cut_lets_out_its_first_entries_and_stops_the_node() {
    let mut cluster = Cluster::fresh(3, 1).unwrap();
    cluster.begin(1, UPDATE, Extent::Cut(2)).unwrap();
    assert_eq!(cluster.deliver(1, 2, WHOLE), Ok(None));
    assert_eq!(refused_in(&mut cluster, |c| c.deliver(1, 3, WHOLE)), Refusal::Empty);
    assert_eq!(refused_in(&mut cluster, |c| c.deliver(1, 1, WHOLE)), Refusal::Stopped);
}

#[test]
fn an_operation_is_open() {
    let mut node = Node::fresh(3, 1, 1).unwrap();
    node.begin(UPDATE, &mut Output::new()).unwrap();
    assert_eq!(refused_at(&mut node, |node, out| node.begin(UPDATE, out)), Refusal::Open);
    assert_eq!(refused_at(&mut node, |node, out| node.begin(Operation::Scan, out)), Refusal::Open);
    let mut cluster = Cluster::fresh(3, 1).unwrap();
    cluster.begin(1, Operation::Scan, WHOLE).unwrap();
    assert_eq!(refused_in(&mut cluster, |c| c.begin(1, UPDATE, WHOLE)), Refusal::Open);
    assert_eq!(refused_in(&mut cluster, |c| c.begin(1, Operation::Scan, WHOLE)), Refusal::Open);
}

#[test]
fn request_numbers_are_used_up() {
    let mut record = *Node::fresh(3, 1, 1).unwrap().as_bytes();
    record[REQUEST..REQUEST + 8].copy_from_slice(&(i64::MAX as u64 - 4).to_be_bytes());
    let mut node = Node::from_bytes(&record).unwrap();
    assert_eq!(refused_at(&mut node, |node, out| node.begin(UPDATE, out)), Refusal::Requests);
    assert_eq!(refused_at(&mut node, |node, out| node.begin(Operation::Scan, out)), Refusal::Requests);
    record[REQUEST + 7] -= 1;
    assert_eq!(Node::from_bytes(&record).unwrap().begin(UPDATE, &mut Output::new()), Ok(()));

    let mut bytes = Cluster::fresh(1, 0).unwrap().as_bytes().to_vec();
    let at = place(&bytes, Node::fresh(1, 0, 1).unwrap().as_bytes()) + REQUEST;
    bytes[at..at + 8].copy_from_slice(&(i64::MAX as u64).to_be_bytes());
    let mut cluster = Cluster::from_bytes(bytes);
    assert_eq!(refused_in(&mut cluster, |c| c.begin(1, UPDATE, WHOLE)), Refusal::Requests);
}

/// The last place at which these bytes stand in all.
fn place(all: &[u8], bytes: &[u8]) -> usize {
    all.windows(bytes.len()).rposition(|window| window == bytes).expect("they stand there")
}

/// The cluster with other bytes of a message in the place of the last that has these.
fn replaced(cluster: &Cluster, bytes: &[u8], by: &[u8]) -> Cluster {
    let mut all = cluster.as_bytes().to_vec();
    let at = place(&all, bytes);
    all[at..at + by.len()].copy_from_slice(by);
    Cluster::from_bytes(all)
}

#[test]
fn messages_that_are_none() {
    let mut node = Node::fresh(3, 1, 1).unwrap();
    let good = value(3, 1, 1);
    for bytes in [&good[1..], &[&good[..], &[0]].concat(), &value(4, 1, 4)] {
        assert_eq!(refused_at(&mut node, |node, out| node.message(1, bytes, out)), Refusal::Layout);
        assert_eq!(refused_at(&mut node, |node, out| node.frame(1, bytes, out)), Refusal::Layout);
    }
    assert_eq!(refused_at(&mut node, |node, out| node.message(1, &[], out)), Refusal::Layout);
    assert_eq!(refused_at(&mut node, |node, out| node.message(1, &good.repeat(2), out)), Refusal::Layout);
    assert_eq!(node.frame(1, &good.repeat(2), &mut Output::new()), Ok(None));
    for bytes in [&[][..], &good.repeat(51), &[0; FRAME + 1]] {
        assert_eq!(refused_at(&mut node, |node, out| node.frame(1, bytes, out)), Refusal::Frame);
    }
    let mut cluster = Cluster::fresh(1, 0).unwrap();
    cluster.begin(1, UPDATE, WHOLE).unwrap();
    let read = written(1, Message::Read { request: 1 });
    let mut cluster = replaced(&cluster, &read, &[0]);
    assert_eq!(refused_in(&mut cluster, |c| c.deliver(1, 1, WHOLE)), Refusal::Layout);
}

#[test]
fn values_that_cannot_come() {
    let mut node = Node::fresh(3, 1, 1).unwrap();
    node.message(2, &value(3, 5, 2), &mut Output::new()).unwrap();
    assert_eq!(refused_at(&mut node, |node, out| node.message(2, &value(3, 4, 2), out)), Refusal::Value);
    assert_eq!(refused_at(&mut node, |node, out| node.frame(2, &value(3, 4, 2), out)), Refusal::Value);
    assert_eq!(refused_at(&mut node, |node, out| node.message(3, &value(3, 6, 2), out)), Refusal::Value);
    assert_eq!(node.message(3, &value(3, 4, 2), &mut Output::new()), Ok(None));

    let mut cluster = Cluster::fresh(1, 0).unwrap();
    cluster.begin(1, UPDATE, WHOLE).unwrap();
    let read = written(1, Message::Read { request: 1 });
    let mut cluster = replaced(&cluster, &read, &value(1, 5, 1));
    cluster.deliver(1, 1, WHOLE).unwrap();
    let mut cluster = replaced(&cluster, &value(1, 5, 1), &value(1, 4, 1));
    assert_eq!(refused_in(&mut cluster, |c| c.deliver(1, 1, WHOLE)), Refusal::Value);
}

/// Node 3 hears nothing, while node 1 works with node 2: the channel from 1 to 3 fills up.
#[test]
fn a_channel_is_full() {
    let mut cluster = Cluster::fresh(3, 1).unwrap();
    let mut waiting = 0;
    loop {
        match cluster.begin(1, UPDATE, WHOLE) {
            Ok(()) | Err(Refusal::Open) => (),
            Err(refusal) => break assert_eq!(refusal, Refusal::Full),
        }
        let links = [(1, 1), (1, 2), (2, 1), (2, 2)];
        let told = links.map(|(from, to)| cluster.deliver(from, to, WHOLE));
        if told.contains(&Err(Refusal::Full)) {
            break;
        }
    }
    while cluster.deliver(1, 3, WHOLE) != Err(Refusal::Empty) {
        waiting += 1;
    }
    assert!((14..=16).contains(&waiting), "{waiting} waited");
}

#[test]
fn an_update_near_the_last_tag_is_spent() {
    let mut node = Node::fresh(1, 0, 1).unwrap();
    let (mut out, mut bytes) = (Output::new(), [0; LONGEST]);
    let length = Message::Echo { tag: i64::MAX as u64 }.write(1, &[], &mut bytes).unwrap();
    node.message(1, &bytes[..length], &mut out).unwrap();
    node.begin(UPDATE, &mut out).unwrap();
    let read = out.as_bytes().to_vec();
    assert_eq!(node.message(1, &read, &mut out), Ok(None));
    let answer = out.as_bytes().to_vec();
    assert_eq!(node.message(1, &answer, &mut out), Ok(Some(Ending::Spent)));
    assert_eq!(out.messages().count(), 0);
}

/// A node lends what it must; by the calls one by one any length may come.
#[test]
fn lent_bytes_of_a_wrong_length() {
    let record = *Node::fresh(3, 1, 1).unwrap().as_bytes();
    let message = value(3, 1, 1);
    for (held, room) in [(RECORD, 0), (RECORD, OUTPUT - 1), (0, OUTPUT), (RECORD - 1, OUTPUT), (RECORD + 1, OUTPUT)] {
        let (mut bytes, mut out, mut length, mut view) = (record.to_vec(), vec![7; room], 7, [7; VIEW]);
        bytes.resize(held, 0);
        let before = bytes.clone();
        let codes = [
            lent::node_begin_update(&mut bytes, &[0; 8], &mut out, &mut length),
            lent::node_begin_scan(&mut bytes, &mut out, &mut length),
            lent::node_message(&mut bytes, 1, &message, &mut out, &mut length, &mut view),
        ];
        assert_eq!(codes, [12; 3], "{held} bytes of a record, {room} of an output");
        assert!(bytes == before && out.iter().chain(&view).all(|&x| x == 7) && length == 7);
    }
    let (mut bytes, mut out, mut length, mut view) = (record.to_vec(), vec![7; OUTPUT + 1], 7, [7; VIEW]);
    assert_eq!(lent::node_message(&mut bytes, 1, &message, &mut out, &mut length, &mut view), 0);
    assert_eq!(out[..length], message);
    assert!(out[length..].iter().chain(&view).all(|&x| x == 7));
    for held in [0, RECORD - 1, RECORD + 1] {
        assert_eq!(lent::node_fresh(3, 1, 1, &mut vec![0; held]), 12);
        assert_eq!(lent::node_fresh(3, 1, 4, &mut vec![0; held]), 1);
    }
}

#[test]
fn the_front_of_an_output() {
    let bytes = [value(3, 1, 1), value(3, 2, 2)].concat();
    let (mut length, mut route) = (7, 7);
    assert_eq!(lent::next(0, &bytes, &mut length, &mut route), 1);
    assert_eq!(lent::next(17, &bytes, &mut length, &mut route), 1);
    assert_eq!(lent::next(3, &[], &mut length, &mut route), 7);
    assert_eq!(lent::next(3, &bytes[..29], &mut length, &mut route), 7);
    assert_eq!(lent::next(3, &bytes[1..], &mut length, &mut route), 7);
    assert_eq!((length, route), (7, 7));
    assert_eq!(lent::next(3, &bytes, &mut length, &mut route), 0);
    assert_eq!((length, route), (30, 0));
    let mut answer = [0; LONGEST];
    Message::WriteAnswer { request: 1, tag: 0 }.write(3, &[], &mut answer).unwrap();
    assert_eq!(lent::next(3, &answer, &mut length, &mut route), 0);
    assert_eq!((length, route), (26, 1));
}
