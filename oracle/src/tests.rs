//! What the oracle is trusted for, told as small stories.

mod faults;
mod frame;
mod page;
mod record;

use crate::cluster::{Event, Extent, Refusal};
use crate::message::{Message, Value, LIMIT};
use crate::node::{Ending, Node, Operation, Rule, To};
use crate::order::{check, check_line, line, operations};
use crate::picture::{self, Scene};
use crate::random;
use crate::session::{play, Played};
use crate::text::{self, Line, Lines};
use std::fs;
use std::io::Read;
use std::path::Path;

fn played(session: &[u8]) -> (usize, Vec<Played>) {
    let (mut n, mut all) = (0, vec![]);
    play(session, |played, cluster| {
        n = cluster.map_or(0, |cluster| cluster.n());
        all.push(played);
        Ok(())
    })
    .expect("a session in memory can be read");
    (n, all)
}

fn printed(session: &[u8]) -> String {
    let (_, all) = played(session);
    let node = |played: &Played| played.event.as_ref().map(Event::node);
    all.iter().filter_map(|p| text::answer(p.number, node(p), &p.outcome)).map(|line| line + "\n").collect()
}

#[test]
fn document_01_session() {
    let session = format!("1 0\nu 1 0001000200030004\n{}s 1\n{}", "d 1 1\n".repeat(11), "d 1 1\n".repeat(6));
    assert_eq!(printed(session.as_bytes()), "11 done 1\n17 scan 1 0001000200030004\n19 no 8\n");
}

#[test]
fn written_sessions_print_what_is_stored() {
    let folder = Path::new(env!("CARGO_MANIFEST_DIR")).join("../sessions");
    let mut count = 0;
    for file in fs::read_dir(folder).expect("the written sessions stand beside the oracle") {
        let path = file.expect("a folder can be listed").path();
        if path.extension().is_some_and(|kind| kind == "txt") {
            let session = fs::read(&path).expect("a session can be read");
            let stored = fs::read_to_string(path.with_extension("out")).expect("each session has its answers");
            assert_eq!(printed(&session), stored, "{}", path.display());
            let (n, all) = played(&session);
            assert!(check(n, &all).is_ok(), "{}", path.display());
            count += 1;
        }
    }
    assert!(count > 0);
}

#[test]
fn random_sessions_have_one_order() {
    for seed in 0..150 {
        let (n, all) = played(&random::session(seed, 300, None));
        if let Err(why) = check(n, &all) {
            panic!("seed {seed}: {why}");
        }
    }
}

#[test]
fn a_seed_gives_the_same_session_again() {
    assert_eq!(random::session(7, 100, Some(3)), random::session(7, 100, Some(3)));
    assert_ne!(random::session(7, 100, Some(3)), random::session(8, 100, Some(3)));
}

/// The check of the line is worth something only if it refuses wrong lines.
#[test]
fn wrong_lines_are_refused() {
    let update = |report: u64| format!("u 1 {report:016x}\n{}", "d 1 1\n".repeat(11));
    let scan = format!("s 1\n{}", "d 1 1\n".repeat(5));
    let (n, all) = played(format!("1 0\n{scan}{}{scan}{}{scan}", update(1), update(2)).as_bytes());
    let ops = operations(&all).expect("each ending has its begin");
    let right = line(&ops);
    assert_eq!(right, [0, 1, 2, 3, 4]);
    assert!(check_line(n, &ops, &right).is_ok());
    let wrong: [&[usize]; 6] =
        [&[1, 0, 2, 3, 4], &[0, 2, 1, 3, 4], &[0, 1, 2, 4, 3], &[0, 1, 2, 3], &[0, 1, 2, 3, 4, 4], &[0, 3, 2, 1, 4]];
    for line in wrong {
        assert!(check_line(n, &ops, line).is_err(), "{line:?}");
    }
}

/// A scan that shows an update too late, or none where there is one, has no place in any line.
#[test]
fn a_false_view_breaks_the_order() {
    let update = format!("u 1 {:016x}\n{}", 5, "d 1 1\n".repeat(11));
    let (n, mut all) = played(format!("1 0\n{update}s 1\n{}", "d 1 1\n".repeat(4)).as_bytes());
    assert!(check(n, &all).is_ok());
    let last = all.last_mut().and_then(|played| played.outcome.as_mut().ok()).expect("the scan has ended");
    assert_eq!(last.ending, Some(Ending::Scan(Rule::Round(1), vec![Some((1, 5))])));
    last.ending = Some(Ending::Scan(Rule::Round(1), vec![None]));
    assert!(check(n, &all).is_err());
}

/// Amendment 5 needs the last tag, which no session reaches; here a write brings it.
#[test]
fn an_update_at_the_last_tag_is_spent() {
    let ending_after = |top: u64, operation: Operation| {
        let mut node = Node::fresh(1, 0, 1);
        node.receive(1, Message::Write { request: 1, tag: top });
        node.begin(operation);
        node.receive(1, Message::ReadAnswer { request: 1, tag: 0 })
    };
    let spent = ending_after(LIMIT, Operation::Update(3));
    assert_eq!((spent.ending, spent.sent), (Some(Ending::Spent), vec![]));

    let value = Message::Value(Value { tag: LIMIT, writer: 1, report: 3 });
    let goes_on = ending_after(LIMIT - 1, Operation::Update(3));
    assert_eq!(goes_on.ending, None);
    assert_eq!(goes_on.sent, [(To::All, value), (To::All, Message::Write { request: 2, tag: LIMIT - 1 })]);

    assert_eq!(ending_after(LIMIT, Operation::Scan).ending, None);
}

#[test]
fn an_event_is_read_back_from_its_line() {
    let session = random::session(11, 400, Some(5));
    for event in played(&session).1.iter().filter_map(|played| played.event) {
        let line = Line::Text(text::line(&event).into_bytes());
        assert_eq!(text::parse_event(&line), Some(event));
    }
}

/// A reader that hands over one byte at a time, as a slow pipe may.
struct Drops<'a>(&'a [u8]);

impl Read for Drops<'_> {
    fn read(&mut self, room: &mut [u8]) -> std::io::Result<usize> {
        self.0.read(&mut room[..1])
    }
}

#[test]
fn lines_do_not_depend_on_how_the_input_comes() {
    let long = [b"s 1 ".repeat(100_000), b"\ns 1\n\nd 1 1".to_vec()].concat();
    let mut lines = Lines::new(Drops(&long));
    let mut next = || lines.next_line().expect("memory can be read");
    assert!(matches!(next(), Some(Line::Broken)));
    assert!(matches!(next(), Some(Line::Text(text)) if text == b"s 1"));
    assert!(matches!(next(), Some(Line::Text(text)) if text.is_empty()));
    assert!(matches!(next(), Some(Line::Broken)));
    assert!(next().is_none());
}

/// A cut is judged before the channels are, and a stop only frees them.
#[test]
fn a_refused_event_changes_nothing() {
    let (_, all) = played(b"3 1\nx 2\ns 1 cut 0\ns 1\ns 1\nd 1 1 cut 1\nd 1 1\n");
    let refusals: Vec<_> = all.iter().map(|played| played.outcome.as_ref().err().copied()).collect();
    assert_eq!(refusals, [None, Some(Refusal(10)), None, Some(Refusal(5)), Some(Refusal(10)), None]);
    assert_eq!(all[5].event, Some(Event::Deliver { from: 1, to: 1, extent: Extent::Whole }));
}

#[test]
fn the_stored_picture_is_the_one_that_is_drawn() {
    let tree = Path::new(env!("CARGO_MANIFEST_DIR")).join("..");
    let session = fs::read(tree.join("sessions/picture.txt")).expect("the session of the picture can be read");
    let stored = fs::read_to_string(tree.join("docs/run.svg")).expect("the picture can be read");
    let (n, all) = played(&session);
    assert!(picture::svg(n, &all) == Ok(stored), "docs/run.svg is not the picture of sessions/picture.txt");
}

/// What a picture shows is true of the run: each delivery ends the way of one message, and each operation of the order
/// has its moment between begin and end, later than the one before.
#[test]
fn a_picture_is_true_of_its_run() {
    for seed in 0..100 {
        let (n, all) = played(&random::session(seed, 200, None));
        if n == 0 {
            continue; // A bad first line.
        }
        let scene = Scene::new(n, &all).expect("each random session has one order");
        let deliveries = all.iter().filter(|played| played.outcome.is_ok());
        let deliveries = deliveries.filter(|played| matches!(played.event, Some(Event::Deliver { .. })));
        let mut ends: Vec<usize> = scene.flights.iter().filter_map(|flight| flight.end).collect();
        ends.sort_unstable();
        assert!(ends.into_iter().eq(deliveries.map(|played| played.number)), "seed {seed}");

        assert!(scene.moments.windows(2).all(|pair| pair[0] < pair[1]), "seed {seed}");
        for (&place, &moment) in scene.line.iter().zip(&scene.moments) {
            let op = &scene.ops[place];
            let end = op.end.as_ref().map_or(scene.last, |end| end.0);
            assert!(op.begin as f64 <= moment && moment <= end as f64, "seed {seed}");
        }
    }
}
