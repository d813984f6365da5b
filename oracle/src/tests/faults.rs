//! What f is trusted for: which are taken, what a quorum and the stops are by it, and that one cluster has one f.

use super::printed;
use crate::cluster::{can_bear, most_faults, Cluster, Event, Refusal};
use crate::dice::Dice;
use crate::habits;
use crate::message::{Message, NodeId, Value};
use crate::node::{Ending, Node, Operation, Rule, Step};
use crate::record::{Fault, Record};
use crate::stated::{Stated, StatedNode};
use crate::wire;
use std::collections::BTreeSet;

/// An output buffer that is long enough.
const OUTPUT: usize = 512;

#[test]
fn the_f_that_are_taken() {
    let most = [0, 0, 1, 1, 2, 2, 3, 3, 4, 4, 5, 5, 6, 6, 7, 7];
    for (n, most) in (1..).zip(most) {
        assert_eq!(most_faults(n), most);
        for f in (0..=9).chain([15, 16, 255, 256, 1 << 32, 1 << 63, usize::MAX]) {
            let refusal = (f > most).then_some(Refusal(1));
            assert_eq!(Record::fresh(n, f, 1).err(), refusal, "{f} of {n}");
            assert_eq!(Cluster::fresh(n, f).err(), refusal, "{f} of {n}");
        }
    }
    assert!(can_bear(15, 7) && can_bear(16, 7) && !can_bear(14, 7) && !can_bear(16, 8));
    assert!(can_bear(17, 7) && !can_bear(17, 8), "not above 7, however many nodes there are");
    assert_eq!((most_faults(0), most_faults(usize::MAX)), (0, (1 << 63) - 1));
}

#[test]
fn an_f_that_cannot_be_makes_a_record_unusable() {
    for (n, f, faults) in [
        (16, 7, vec![]),
        (15, 7, vec![]),
        (14, 7, vec![Fault::F]),
        (16, 8, vec![Fault::F]),
        (3, 0, vec![]),
        (3, 1, vec![]),
        (3, 2, vec![Fault::F]),
        (3, 257, vec![Fault::F]),
        (3, 1 << 63, vec![Fault::F]),
        (3, (1 << 63) + 1, vec![Fault::F]),
        (0, 0, vec![Fault::N, Fault::F, Fault::Own]),
    ] {
        let record = Record { n, f, ..Record::fresh(1, 0, 1).expect("one node, none may stop") };
        assert_eq!(record.faults(), faults, "{f} of {n}");
    }
}

/// The nodes 1 to n of a cluster that nothing has happened in.
fn stated(n: usize, f: usize) -> Stated {
    let record = |own| Record::fresh(n, f, own).ok();
    let node = |own| StatedNode { stopped: false, record: record(own), waiting: vec![0; n] };
    Stated { n, f, nodes: (1..=n).map(node).collect() }
}

#[test]
fn a_cluster_has_one_f() {
    assert_eq!(stated(5, 2).judge(), Ok(()));
    for (n, f) in [(0, 0), (17, 1), (5, 3), (5, 257), (5, 1 << 63)] {
        assert_eq!(Stated { n, f, nodes: vec![] }.judge(), Err(Refusal(2)), "{f} of {n}");
    }
    for other in [0, 1] {
        assert_eq!(Stated { f: other, ..stated(5, 2) }.judge(), Err(Refusal(2)), "all records differ");
        for place in 0..5 {
            let mut cluster = stated(5, 2);
            cluster.nodes[place].record.as_mut().expect("a fresh record").f = other;
            assert_eq!(cluster.judge(), Err(Refusal(2)), "one record differs");
        }
    }
}

#[test]
fn what_else_makes_a_cluster_unusable() {
    let changed = |change: &dyn Fn(&mut StatedNode)| {
        let mut cluster = stated(5, 2);
        change(&mut cluster.nodes[4]);
        cluster.judge().err()
    };
    let record = |change: fn(&mut Record)| changed(&|node| node.record.iter_mut().for_each(change));
    assert_eq!(record(|record| record.n = 6), Some(Refusal(2)));
    assert_eq!(record(|record| record.own = 4), Some(Refusal(2)));
    assert_eq!(record(|record| record.request = 1 << 63), Some(Refusal(2)));
    assert_eq!(changed(&|node| node.record = None), Some(Refusal(2)));
    assert_eq!(changed(&|node| node.waiting[0] = 16), None);
    assert_eq!(changed(&|node| node.waiting[0] = 17), Some(Refusal(2)));
    for f in 0..=2 {
        for stopped in 0..=5 {
            let mut cluster = stated(5, f);
            cluster.nodes[..stopped].iter_mut().for_each(|node| node.stopped = true);
            assert_eq!(cluster.judge().is_ok(), stopped <= f, "{stopped} stopped of {f}");
        }
    }
}

/// How many read answers a scan at node 1 needs before it writes, and how many write answers before it ends: by the
/// sets and by the record alike.
fn needed(n: usize, f: usize) -> [usize; 2] {
    let (mut node, mut record) = (Node::fresh(n, f, 1), Record::fresh(n, f, 1).expect("n can bear f"));
    assert_eq!(record.begin(Operation::Scan, OUTPUT), Ok(node.begin(Operation::Scan)));
    [Message::ReadAnswer { request: 1, tag: 0 }, Message::WriteAnswer { request: 2, tag: 0 }].map(|answer| {
        let mut both = |sender: &NodeId| {
            let step = node.receive(*sender, answer.clone());
            assert_eq!(record.message(*sender, &wire::write(&answer), OUTPUT).as_ref(), Ok(&step));
            step
        };
        (1..=n).find(|sender| both(sender) != Step::default()).expect("all answers are enough")
    })
}

#[test]
fn a_quorum_is_all_but_f() {
    assert_eq!([0, 1, 2].map(|f| needed(5, f)), [[5, 5], [4, 4], [3, 3]]);
    for n in 1..=16 {
        for f in 0..=most_faults(n) {
            assert_eq!(needed(n, f), [n - f; 2], "{f} of {n}");
        }
    }
}

/// A scan ends when a quorum has sent the value that its node has: with f = 0 of five nodes, when the fifth has.
#[test]
fn a_quorum_agrees_on_a_view() {
    for f in 0..=2 {
        let mut record = Record::fresh(5, f, 1).expect("five nodes can bear two stops");
        record.begin(Operation::Scan, OUTPUT).expect("a fresh node begins");
        let mut message =
            |sender, message| record.message(sender, &wire::write(&message), OUTPUT).expect("it can come");
        let value = Message::Value(Value { tag: 1, writer: 2, report: 7 });
        message(2, Message::Echo { tag: 1 });
        message(2, value.clone());
        for sender in 1..=5 {
            message(sender, Message::ReadAnswer { request: 1, tag: 1 });
        }
        for sender in 1..=5 {
            assert_eq!(message(sender, Message::WriteAnswer { request: 2, tag: 1 }).ending, None);
        }
        // Nodes 1 and 2 agree: the node itself, and the writer.
        let ending = (3..=5).find_map(|sender| Some((sender, message(sender, value.clone()).ending?)));
        let view = vec![None, Some((1, 7)), None, None, None];
        assert_eq!(ending, Some((5 - f, Ending::Scan(Rule::Round(1), view))));
    }
}

#[test]
fn f_nodes_may_stop() {
    for n in 1..=16 {
        for f in 0..=most_faults(n) {
            let mut cluster = Cluster::fresh(n, f).expect("n can bear f");
            let answers: Vec<_> = (1..=n).map(|node| cluster.event(&Event::Stop { node }).err()).collect();
            assert!(answers[..f].iter().all(Option::is_none), "{f} of {n}");
            assert!(answers[f..].iter().all(|answer| *answer == Some(Refusal(10))), "{f} of {n}");
        }
    }
}

#[test]
fn first_lines() {
    let taken = ["1 0", "2 0", "3 0", "3 1", "4 1", "5 0", "5 1", "5 2", "0005 0002", "5 02", "03 1"];
    for line in taken {
        assert_eq!(printed(format!("{line}\nd 6 1\n").as_bytes()), "1 no 3\n", "{line:?}");
    }
    #[rustfmt::skip]
    let bad = [
        "", "3", "3 ", " 3", "3  1", " 3 1", "3 1 ", "3 1 1", "3\t1", "3 1\r", "3,1", "31", "3 -1", "3 +1", "3 f",
        "f 1", "1 1", "2 1", "3 2", "4 2", "5 3", "5 7", "5 8", "5 9999", "3 256", "3 257", "0 0", "6 0", "6 2",
        "15 7", "16 7", "9999 7", "00003 1", "3 00001", "3 18446744073709551617",
    ];
    for line in bad {
        assert_eq!(printed(format!("{line}\nd 6 1\n").as_bytes()), "0 no 1\n", "{line:?}");
    }
    assert_eq!(printed(b"3 1"), "0 no 1\n", "no line feed");
}

#[test]
fn every_f_is_drawn() {
    let mut dice = Dice::new(1);
    for n in 1..=16 {
        let drawn: BTreeSet<usize> = (0..1000).map(|_| habits::faults(&mut dice, n)).collect();
        assert!(drawn.into_iter().eq(0..=most_faults(n)), "{n}");
    }
}
