//! What the bounded record and the messages in bytes are trusted for.

use crate::cluster::{Event, Refusal};
use crate::dice::Dice;
use crate::message::{Message, NodeId, Value, LIMIT};
use crate::network::Network;
use crate::node::{Ending, Node, Operation, Step};
use crate::record::{Fault, Kind, Record, Wait};
use crate::wire;
use std::collections::BTreeSet;

/// The bounded record does, step by step, what the sets that never forget do, and holds of them what it is to hold.
#[test]
fn the_record_does_what_the_sets_do() {
    let mut endings = BTreeSet::new();
    for seed in 0..400 {
        let mut network = Network::draw(Dice::new(seed));
        let (n, f) = (network.n(), network.f());
        let old = |id: NodeId| Node::old(n, f, id, network.record(1).max_tag, network.record(id.max(1)).request);
        let mut nodes: Vec<Node> = (0..=n).map(old).collect();
        for event in 0..400 + 20 * n {
            let Some(happening) = network.next_event() else { break };
            let id = happening.event.node();
            let node = &mut nodes[id];
            let step = match happening.event {
                Event::Begin { operation, .. } => node.begin(operation),
                Event::Deliver { from, .. } => {
                    let received = happening.messages.into_iter().map(|message| node.receive(from, message));
                    Step::joined(&received.collect::<Vec<_>>())
                }
                Event::Stop { .. } => Step::default(),
            };
            assert_eq!(happening.step, step, "seed {seed}, event {event}");
            let record = network.record(id);
            assert_eq!(record.judge(), Ok(()), "seed {seed}, event {event}");
            assert_eq!(record.shown(&record.last), node.extract(LIMIT), "seed {seed}, event {event}");
            assert_eq!(record.shown(&record.at_max), node.extract(record.max_tag), "seed {seed}, event {event}");
            if let Some((_, tag)) = record.round() {
                assert_eq!(record.shown(&record.at_round), node.extract(tag), "seed {seed}, event {event}");
            }
            endings.insert(match step.ending {
                None => "nothing".to_string(),
                Some(Ending::Done(rule, _)) => format!("done {rule:?}"),
                Some(Ending::Scan(rule, _)) => format!("scan {rule:?}"),
                Some(Ending::Spent) => "spent".to_string(),
            });
        }
    }
    assert_eq!(endings.len(), 10, "{endings:?}");
}

/// Document 01's points on messages, and that what is written is read again, alone and before other bytes.
#[test]
fn messages_in_bytes() {
    let read = Message::Read { request: 1 };
    let bytes = wire::write(&read);
    assert_eq!(bytes, [1, 0, 1, 1, 2, 0, 8, 0, 0, 0, 0, 0, 0, 0, 1]);
    assert_eq!(wire::read(1, &bytes), Some(read.clone()));
    assert_eq!(wire::read(1, &bytes[..14]), None);
    assert_eq!(wire::read(1, &[&bytes[..], &[0]].concat()), None);
    assert_eq!(wire::front(1, &[&bytes[..], &bytes].concat()), Some((read, 15)));
    for (n, length) in [(1, 34), (16, 274)] {
        let view = (1..=n as u64).map(|node| (node > 1).then_some((node, 7))).collect();
        let good = Message::Good { tag: 16, view };
        let bytes = wire::write(&good);
        assert_eq!((bytes.len(), wire::read(n, &bytes)), (length, Some(good)));
        assert_eq!((wire::read(n - 1, &bytes), wire::read(n + 1, &bytes)), (None, None));
    }
    let not_allowed = [
        Message::Read { request: 0 },
        Message::Read { request: LIMIT + 1 },
        Message::Write { request: 1, tag: LIMIT + 1 },
        Message::Echo { tag: 0 },
        Message::Value(Value { tag: 0, writer: 1, report: 0 }),
        Message::Value(Value { tag: 1, writer: 0, report: 0 }),
        Message::Value(Value { tag: 1, writer: 3, report: 0 }),
        Message::Good { tag: 1, view: vec![None, Some((2, 0))] },
        Message::Good { tag: 1, view: vec![None, Some((0, 1))] },
    ];
    for message in not_allowed {
        assert_eq!(wire::read(2, &wire::write(&message)), None, "{message:?}");
    }
}

/// Each clause of refusal 2 alone: what is just at its limit is usable, one more is not.
#[test]
fn unusable_records() {
    let fresh = || Record::fresh(3, 1, 2).expect("2 is one of 3 nodes, of which one may stop");
    let usable = |change: &dyn Fn(&mut Record)| {
        let mut record = fresh();
        change(&mut record);
        record.faults()
    };
    assert_eq!(Record::fresh(17, 1, 1), Err(Refusal(1)));
    assert_eq!(Record::fresh(3, 2, 1), Err(Refusal(1)));
    assert_eq!(Record::fresh(3, 1, 4), Err(Refusal(1)));
    assert_eq!(usable(&|record| record.n = 17), [Fault::N]);
    assert_eq!(usable(&|record| record.f = 2), [Fault::F]);
    assert_eq!(usable(&|record| record.own = 4), [Fault::Own]);
    for (more, faults) in [(0, vec![]), (1, vec![Fault::AboveLimit])] {
        assert_eq!(usable(&|record| record.max_tag = LIMIT + more), faults);
        assert_eq!(usable(&|record| record.request = LIMIT + more), faults);
        assert_eq!(usable(&|record| record.kept = LIMIT + more), faults);
        assert_eq!(usable(&|record| _ = record.heard.insert((16, 16), LIMIT + more)), faults);
        assert_eq!(usable(&|record| _ = record.last.insert(16, (LIMIT + more, 0))), faults);
        assert_eq!(usable(&|record| _ = record.at_round.insert(16, (LIMIT + more, 0))), faults);
        let reading = |answered: [NodeId; 1], largest| {
            let wait = Wait::Reading { operation: Operation::Scan, answered: answered.into(), largest };
            usable(&|record| record.wait = Some(wait.clone()))
        };
        assert_eq!(reading([3], LIMIT + more), faults);
        assert_eq!(reading([3 + more as usize], 0), faults);
    }
    for (tag, faults) in [(5, vec![]), (6, vec![Fault::AboveMaxTag])] {
        let change = |record: &mut Record| (record.max_tag, record.at_max) = (5, [(16, (tag, 0))].into());
        assert_eq!(usable(&change), faults);
    }
    for (tag, faults) in [(5, vec![]), (6, vec![Fault::AboveKeptTag])] {
        let change = |record: &mut Record| (record.kept, record.kept_view) = (5, [(16, (tag, 0))].into());
        assert_eq!(usable(&change), faults);
    }
    assert_eq!(usable(&|record| _ = record.last.insert(16, (0, 1))), [Fault::BytesBesideZero]);

    let comparing = |round, tag, held, left| {
        let wait = Wait::Comparing { kind: Kind::Scan, round, tag };
        usable(&|record| {
            record.wait = Some(wait.clone());
            record.at_round.insert(16, (held, 0));
            record.request = LIMIT - left;
        })
    };
    for round in 0..=3 {
        assert_eq!(comparing(round, 5, 5, 3 - round), []);
        assert_eq!(comparing(round, 5, 6, 3 - round), [Fault::AboveRoundTag]);
        if round < 3 {
            assert_eq!(comparing(round, 5, 5, 2 - round), [Fault::TooFewRequests]);
        }
    }
    assert_eq!(comparing(4, 5, 5, 9), [Fault::Round]);
    assert_eq!(comparing(0, LIMIT - 1, 5, 9), []);
    assert_eq!(comparing(0, LIMIT, 5, 9), [Fault::AboveLimit]);
    assert_eq!(comparing(1, LIMIT, 5, 9), []);
    for (operation, needed) in [(Operation::Scan, 3), (Operation::Update(0), 4)] {
        let reading = |left: u64| {
            let wait = Wait::Reading { operation, answered: BTreeSet::new(), largest: 0 };
            usable(&|record| (record.wait, record.request) = (Some(wait.clone()), LIMIT - left))
        };
        assert_eq!((reading(needed), reading(needed - 1)), (vec![], vec![Fault::TooFewRequests]));
    }
}

/// The refusals of begin and message, the first that applies.
#[test]
fn refusals_of_a_record_in_their_order() {
    let mut record = Record::fresh(2, 0, 1).expect("1 is one of 2 nodes");
    let value = |tag| wire::write(&Message::Value(Value { tag, writer: 2, report: 0 }));
    record.request = LIMIT - 4;
    let fresh = record.clone();
    assert_eq!(record.begin(Operation::Scan, 512), Err(Refusal(6)));
    assert_eq!(record.begin(Operation::Scan, 511), Err(Refusal(12)));
    assert_eq!(record.message(0, &[], 511), Err(Refusal(12)));
    assert_eq!(record.message(0, &[], 512), Err(Refusal(3)));
    assert_eq!(record.message(3, &[], 512), Err(Refusal(3)));
    assert_eq!(record.message(2, &[], 512), Err(Refusal(7)));
    assert_eq!(record, fresh);
    assert!(record.message(2, &value(3), 512).is_ok());
    assert_eq!(record.message(2, &value(2), 512), Err(Refusal(9)));
    assert_eq!(record.message(1, &value(4), 512), Err(Refusal(9)));
    assert!(record.message(1, &value(2), 512).is_ok());
    assert_eq!((record.last[&2], record.heard[&(1, 2)]), ((3, 0), 2));
    record.wait = Some(Wait::Borrowing { kind: Kind::Scan, tag: 1 });
    assert_eq!(record.begin(Operation::Scan, 512), Err(Refusal(5)));
    record.own = 3;
    assert_eq!(record.begin(Operation::Scan, 512), Err(Refusal(2)));
    assert_eq!(record.message(0, &[], 512), Err(Refusal(2)));
}
