//! What frames are trusted for: the same as their messages one by one, or nothing.

use crate::cluster::{most_faults, Refusal};
use crate::message::{Message, Tag, Value};
use crate::node::{Ending, Operation, Rule, Step, To};
use crate::record::Record;
use crate::wire;

/// The shortest output that a frame takes.
const OUTPUT: usize = 8192;

fn fresh(n: usize) -> Record {
    Record::fresh(n, most_faults(n), 1).expect("1 is one of n nodes")
}

fn value(tag: Tag) -> Message {
    Message::Value(Value { tag, writer: 2, report: 7 })
}

fn frame(messages: &[Message]) -> Vec<u8> {
    messages.iter().flat_map(wire::write).collect()
}

fn reads(count: usize) -> Vec<Message> {
    vec![Message::Read { request: 4 }; count]
}

/// Node 1 of two has heard tag 3 of writer 2 from node 2, and the report is above its top tag: so of that writer node 2
/// can bring neither a smaller tag nor a larger one now.
fn heard() -> Record {
    let mut record = fresh(2);
    record.message(2, &wire::write(&value(3)), OUTPUT).expect("a first value can come");
    record
}

#[test]
fn one_message_is_handled_as_by_itself() {
    let good = Message::Good { tag: 5, view: vec![None, Some((4, 7))] };
    let answers = [Message::ReadAnswer { request: 1, tag: 2 }, Message::WriteAnswer { request: 1, tag: 2 }];
    let others = [Message::Write { request: 1, tag: 5 }, Message::Echo { tag: 5 }, value(2), value(3), value(4), good];
    let mut begun = heard();
    begun.begin(Operation::Scan, OUTPUT).expect("an idle node begins");
    for message in reads(1).into_iter().chain(answers).chain(others) {
        let bytes = wire::write(&message);
        for record in [heard(), begun.clone()] {
            let (mut alone, mut framed) = (record.clone(), record);
            let step = alone.message(2, &bytes, OUTPUT);
            assert_eq!(framed.frame(2, &bytes, OUTPUT), step.map(|step| vec![step]), "{message:?}");
            assert_eq!(framed, alone, "{message:?}");
        }
    }
}

#[test]
fn a_frame_may_have_1500_bytes_and_no_more() {
    let mut record = fresh(3);
    record.max_tag = 9;
    let answer = Step { sent: vec![(To::One(2), Message::ReadAnswer { request: 4, tag: 9 })], ending: None };
    let hundred = frame(&reads(100));
    assert_eq!(hundred.len(), 1500);
    let before = record.clone();
    let steps = record.frame(2, &hundred, OUTPUT).expect("a hundred reads are a frame");
    assert!(steps.len() == 100 && steps.iter().all(|step| *step == answer));

    let echoes = vec![Message::Echo { tag: 1 }; 81];
    let longer = frame(&[echoes, vec![Message::ReadAnswer { request: 1, tag: 1 }; 11]].concat());
    assert_eq!((longer.len(), wire::split(3, &longer).map(|messages| messages.len())), (1501, Some(92)));
    assert_eq!(record.frame(2, &longer, OUTPUT), Err(Refusal(14)));
    assert_eq!(record.frame(2, &[], OUTPUT), Err(Refusal(14)));
    assert_eq!(record, before);
}

/// The tag that an echo brings lets the next value come; the one after that comes too early.
#[test]
fn a_value_is_judged_when_its_turn_comes() {
    let taken = [Message::Echo { tag: 3 }, value(4)];
    let mut record = heard();
    assert_eq!(record.frame(2, &frame(&[value(4)]), OUTPUT), Err(Refusal(9)));
    assert_eq!(record.frame(2, &frame(&[taken.to_vec(), vec![value(5)]].concat()), OUTPUT), Err(Refusal(9)));
    assert_eq!(record.frame(2, &frame(&[value(4), Message::Echo { tag: 3 }]), OUTPUT), Err(Refusal(9)));
    assert_eq!(record, heard());
    let steps = record.frame(2, &frame(&taken), OUTPUT).expect("both can come");
    let sent: Vec<_> = steps.into_iter().map(|step| step.sent).collect();
    assert_eq!(sent, taken.map(|message| vec![(To::All, message)]));
    assert_eq!((record.max_tag, record.last[&2], record.heard[&(2, 2)]), (3, (4, 7), 4));
}

/// Values come one after the other with their echoes, and at the end of the frame one comes a second time.
#[test]
fn a_value_refused_at_the_end_leaves_all_as_it_was() {
    let rising = (1..=32).flat_map(|tag| [value(tag), Message::Echo { tag }]);
    let mut messages: Vec<Message> = rising.chain(reads(2)).collect();
    messages.push(value(32));
    let mut record = fresh(2);
    assert!(record.clone().frame(2, &frame(&messages), OUTPUT).is_ok());
    messages[66] = value(31);
    assert_eq!((messages.len(), frame(&messages).len()), (67, 1500));
    assert_eq!(record.frame(2, &frame(&messages), OUTPUT), Err(Refusal(9)));
    assert_eq!(record, fresh(2));
}

/// The second message moves the scan on, the third ends it; after that the node is idle and still answers.
#[test]
fn an_ending_in_the_middle_of_a_frame() {
    let mut record = fresh(1);
    record.begin(Operation::Scan, OUTPUT).expect("a fresh node begins");
    let messages = [
        Message::Read { request: 1 },
        Message::ReadAnswer { request: 1, tag: 0 },
        Message::WriteAnswer { request: 2, tag: 0 },
        Message::WriteAnswer { request: 2, tag: 0 },
        Message::Echo { tag: 6 },
        Message::Read { request: 8 },
    ];
    let steps = record.frame(1, &frame(&messages), OUTPUT).expect("a run has such a frame");
    let all = Step::joined(&steps);
    assert_eq!((&all.ending, &steps[2].ending), (&Some(Ending::Scan(Rule::Round(1), vec![None])), &all.ending));
    let sent = [
        (To::One(1), Message::ReadAnswer { request: 1, tag: 0 }),
        (To::All, Message::Write { request: 2, tag: 0 }),
        (To::All, Message::Good { tag: 0, view: vec![None] }),
        (To::All, Message::Echo { tag: 6 }),
        (To::One(1), Message::ReadAnswer { request: 8, tag: 6 }),
    ];
    assert_eq!(all.sent, sent);
    assert_eq!((record.wait, record.max_tag, record.request), (None, 6, 2));
}

/// Whatever else is wrong with a call, the first refusal that applies is given: so for each two of them.
#[test]
fn refusals_of_a_frame_in_their_order() {
    let (stale, late) = (frame(&[value(2)]), frame(&[value(3), value(2)]));
    let (first, broken) = (frame(&reads(1)), vec![1, 0, 1, 8]);
    let frames = [
        (14, vec![]),
        (14, vec![0; 1501]),
        (14, [frame(&reads(99)), stale.clone()].concat()),
        (7, broken.clone()),
        (7, first[..14].to_vec()),
        (7, [first.clone(), vec![0]].concat()),
        (7, [stale.clone(), broken.clone()].concat()),
        (7, [broken, stale.clone()].concat()),
        (7, [late.clone(), first[..14].to_vec()].concat()),
        (9, stale),
        (9, late.clone()),
        (9, [first.clone(), late, first].concat()),
    ];
    for (number, bytes) in frames {
        for (sender, number) in [(2, number), (0, 3), (3, 3)] {
            for (own, number) in [(1, number), (3, 2)] {
                for (output, number) in [(OUTPUT, number), (OUTPUT - 1, 12), (0, 12)] {
                    let mut record = Record { own, ..heard() };
                    assert_eq!(record.frame(sender, &bytes, output), Err(Refusal(number)), "{bytes:?}");
                    assert_eq!(record, Record { own, ..heard() });
                }
            }
        }
    }
}

#[test]
fn message_calls_still_take_one_message() {
    let mut record = heard();
    assert_eq!(record.message(2, &frame(&reads(2)), OUTPUT), Err(Refusal(7)));
    assert_eq!(record, heard());
}
