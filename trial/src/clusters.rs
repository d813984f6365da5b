//! Clusters in bytes, as they are lent to the calls for C: runs beside the oracle's cluster, and copies that state
//! another n, f, number or stop than they should.
//!
//! | bytes | what |
//! |---|---|
//! | 0, 1 | n, f |
//! | then a block for each node | whether it has stopped (any byte but 0), its record, sixteen channels to it |
//!
//! The channels are by sender, each a byte that counts what waits, one that tells the slot of the oldest, and sixteen
//! slots of 274 bytes.

use crate::case::code;
use crate::chance::{noise, report};
use crate::stored::{self, F, N, OWN, SIZE};
use crate::throw::Trial;
use oracle::cluster::{most_faults, Cluster, Event, Extent, Outcome, Refusal, CAPACITY};
use oracle::dice::Dice;
use oracle::habits::faults;
use oracle::message::NodeId;
use oracle::node::{Ending, Operation};
use oracle::record::{Record, BAD_LENGTH, NODES};
use oracle::stated::{Stated, StatedNode};
use oracle::wire;
use snapshot::{lent, VIEW};

/// The bytes before the blocks, of a channel and of a block.
const HEAD: usize = 2;
const CHANNEL: usize = 2 + CAPACITY * 274;
const BLOCK: usize = 1 + SIZE + NODES * CHANNEL;

/// Events of a run.
const EVENTS: usize = 80;

/// What is changed in a copy. "Another" may be the same by chance.
pub const NOTHING: &str = "nothing";
pub const OTHER_F: &str = "another f of the cluster";
pub const BAD_F: &str = "an f of the cluster that cannot be";
pub const OTHER_F_OF_RECORD: &str = "another f of a record";
pub const BAD_F_OF_RECORD: &str = "an f of a record that cannot be";
pub const OTHER_F_OF_RECORDS: &str = "another f of all records";
pub const OTHER_F_OF_ALL: &str = "another f of cluster and records";
pub const BAD_F_OF_ALL: &str = "an f of cluster and records that cannot be";
pub const STOPS: &str = "stops";
pub const OTHER_N: &str = "another n of the cluster";
pub const OTHER_N_OF_RECORD: &str = "another n of a record";
pub const OTHER_OWN_OF_RECORD: &str = "another number of a record";
pub const LENGTH: &str = "another length";

const CHANGES: [&str; 13] = [
    NOTHING,
    OTHER_F,
    BAD_F,
    OTHER_F_OF_RECORD,
    BAD_F_OF_RECORD,
    OTHER_F_OF_RECORDS,
    OTHER_F_OF_ALL,
    BAD_F_OF_ALL,
    STOPS,
    OTHER_N,
    OTHER_N_OF_RECORD,
    OTHER_OWN_OF_RECORD,
    LENGTH,
];

/// The bytes of a cluster of n nodes.
fn size(n: usize) -> usize {
    HEAD + BLOCK * n
}

/// Where the block of a node starts: with its stop.
fn block(node: NodeId) -> usize {
    HEAD + BLOCK * (node - 1)
}

/// Where the count of a channel stands.
fn count(from: NodeId, to: NodeId) -> usize {
    block(to) + 1 + SIZE + CHANNEL * (from - 1)
}

fn put_word(bytes: &mut [u8], node: NodeId, word: usize, number: u64) {
    let place = block(node) + 1 + 8 * word;
    bytes[place..place + 8].copy_from_slice(&number.to_be_bytes());
}

/// Fresh records and clusters with every kind of n and f, and what the calls tell of each n.
pub fn every_fresh(trial: &mut Trial) {
    let wide = [255, 256, 257, 1 << 32, (1 << 32) + 1, 1 << 63, (1 << 63) + 1, usize::MAX];
    for n in (0..=NODES + 2).chain(wide) {
        let (told, due) = ((lent::most_faults(n), lent::size(n)), (most_faults(n), size_for(n)));
        let same = if told == due { Ok(()) } else { Err(format!("of {n} nodes: {told:?}, expected {due:?}")) };
        trial.keep(same);
        for f in (0..=NODES).chain(wide) {
            for own in [0, 1, n, n.wrapping_add(1)] {
                trial.fresh(n, f, own, SIZE);
            }
            for size in [0, size(1) - 1, size_for(n)] {
                fresh(trial, n, f, size);
            }
        }
    }
}

/// What the library states for n: the bytes of a cluster, or 0 where there may be none.
fn size_for(n: usize) -> usize {
    if (1..=NODES).contains(&n) {
        size(n)
    } else {
        0
    }
}

/// A fresh cluster in so many bytes that hold anything before. Gives its bytes.
fn fresh(trial: &mut Trial, n: usize, f: usize, size: usize) -> Option<Vec<u8>> {
    let mut bytes = noise(&mut trial.dice, size);
    let due = match Cluster::fresh(n, f) {
        Err(Refusal(number)) => (number, bytes.clone()),
        Ok(_) if size != size_for(n) => (BAD_LENGTH.0, bytes.clone()),
        Ok(_) => (0, fresh_bytes(n, f)),
    };
    let proved = (lent::fresh(n, f, &mut bytes), bytes);
    let same = proved == due;
    let told = || format!("fresh cluster {n} {f} in {size} bytes: code {}, expected {}", proved.0, due.0);
    trial.keep(if same { Ok(()) } else { Err(told()) })?;
    trial.tally.see_fresh_cluster(f, proved.0);
    Some(proved.1)
}

fn fresh_bytes(n: usize, f: usize) -> Vec<u8> {
    let mut bytes = vec![0; size(n)];
    (bytes[0], bytes[1]) = (n as u8, f as u8);
    for own in 1..=n {
        let record = Record::fresh(n, f, own).expect("a cluster may have this n and f");
        bytes[block(own) + 1..][..SIZE].copy_from_slice(&stored::bytes(&stored::write(&record)));
    }
    bytes
}

/// Runs one cluster for a while, with a changed copy beside each event. Its first difference ends it.
pub fn cluster(trial: &mut Trial) {
    let n = trial.dice.pick(&[1, 2, 3, 3, 4, 5, 5, 5, 7, NODES]);
    let f = faults(&mut trial.dice, n);
    let mut cluster = Cluster::fresh(n, f).expect("a drawn f can be borne");
    let Some(mut bytes) = fresh(trial, n, f, size(n)) else { return };
    for _ in 0..EVENTS {
        throw_copy(trial, &cluster, &bytes);
        let event = event(&mut trial.dice, &cluster);
        let outcome = compare(&mut cluster, &mut bytes, &event);
        let Some(code) = trial.keep(outcome) else { return };
        trial.tally.see_event(code);
    }
}

/// One event of a run on both sides, which leaves bytes that can be used. Gives the code.
fn compare(cluster: &mut Cluster, bytes: &mut [u8], event: &Event) -> Result<u8, String> {
    let before = bytes.to_vec();
    let outcome = cluster.event(event);
    let mut due = (code_of(&outcome), [0; VIEW]);
    if let Some(Ending::Scan(_, view)) = outcome.as_ref().ok().and_then(|accepted| accepted.ending.as_ref()) {
        let shown = wire::view_bytes(view);
        due.1[..shown.len()].copy_from_slice(&shown);
    }
    let proved = play(bytes, event);
    let kept = outcome.is_ok() || before == bytes;
    match judge(bytes) {
        Ok(_) if proved == due && kept => Ok(proved.0),
        judged => Err(format!(
            "{event:?} in a cluster of {}, f = {}: code {}, expected {}; kept {kept}, then {:?}",
            bytes[0],
            bytes[1],
            proved.0,
            due.0,
            judged.err()
        )),
    }
}

/// An event by the proved calls: the code, and the view where a scan ended.
fn play(bytes: &mut [u8], event: &Event) -> (u8, [u8; VIEW]) {
    let cut = |extent: Extent| match extent {
        Extent::Whole => (false, 0),
        Extent::Cut(m) => (true, m),
    };
    let mut view = [0; VIEW];
    let code = match *event {
        Event::Begin { node, operation, extent } => {
            let (cut, m) = cut(extent);
            match operation {
                Operation::Update(report) => lent::begin_update(bytes, node, &report.to_be_bytes(), cut, m),
                Operation::Scan => lent::begin_scan(bytes, node, cut, m),
            }
        }
        Event::Deliver { from, to, extent } => {
            let (cut, m) = cut(extent);
            lent::deliver(bytes, from, to, cut, m, &mut view)
        }
        Event::Stop { node } => lent::stop(bytes, node),
    };
    (code, view)
}

fn code_of(outcome: &Outcome) -> u8 {
    match outcome {
        Err(Refusal(number)) => *number,
        Ok(accepted) => code(&accepted.ending),
    }
}

/// Refusals 12 and 2, and what usable bytes state.
fn judge(bytes: &[u8]) -> Result<Stated, Refusal> {
    let n = bytes.first().copied().ok_or(BAD_LENGTH)?.into();
    if (1..=NODES).contains(&n) && bytes.len() != size(n) {
        return Err(BAD_LENGTH);
    }
    let node = |block: &[u8]| {
        let (record, channels) = block[1..].split_at(SIZE);
        StatedNode {
            stopped: block[0] != 0,
            record: stored::words(record).and_then(|words| stored::read(&words)),
            waiting: channels.chunks(CHANNEL).take(n).map(|channel| channel[0].into()).collect(),
        }
    };
    let f = bytes.get(1).map_or(0, |&f| f.into());
    let nodes = bytes.get(HEAD..).unwrap_or_default().chunks_exact(BLOCK).map(node).collect();
    let stated = Stated { n, f, nodes };
    stated.judge().map(|()| stated)
}

/// An event on a copy in which something was changed. Where that leaves it usable the event is a stop: what a stop
/// gives depends on n, f and the nodes that have stopped, and on nothing else.
fn throw_copy(trial: &mut Trial, cluster: &Cluster, bytes: &[u8]) {
    let mut copy = bytes.to_vec();
    let name = trial.dice.pick(&CHANGES);
    change(&mut trial.dice, &mut copy, name);
    let stated = judge(&copy);
    let event = match &stated {
        Ok(stated) => Event::Stop { node: trial.dice.below(stated.n + 2) },
        Err(_) => event(&mut trial.dice, cluster),
    };
    let outcome = stated.map_or_else(Err, |stated| stopped_alike(&stated).event(&event));
    let mut due = (code_of(&outcome), copy.clone());
    if let (Ok(_), Event::Stop { node }) = (&outcome, event) {
        due.1[block(node)] = 1;
        (1..=copy[0].into()).for_each(|from| due.1[count(from, node)] = 0);
    }
    let proved = (play(&mut copy, &event).0, copy);
    let same = proved == due;
    let told = || format!("{event:?} in a cluster, changed: {name}: code {}, expected {}", proved.0, due.0);
    if trial.keep(if same { Ok(()) } else { Err(told()) }).is_some() {
        trial.tally.see_copy(name, proved.0);
    }
}

/// A cluster with the same n and f in which the same nodes have stopped, and nothing else has happened.
fn stopped_alike(stated: &Stated) -> Cluster {
    let mut cluster = Cluster::fresh(stated.n, stated.f).expect("a usable n and f");
    for (node, _) in (1..).zip(&stated.nodes).filter(|(_, node)| node.stopped) {
        cluster.event(&Event::Stop { node }).expect("at most f nodes have stopped");
    }
    cluster
}

fn change(dice: &mut Dice, bytes: &mut Vec<u8>, name: &str) {
    let n = usize::from(bytes[0]);
    let (f, node) = (u64::from(bytes[1]), 1 + dice.below(n));
    let (other, more) = (faults(dice, n) as u8, most_faults(n) as u8 + 1);
    let bad = dice.pick(&[more, more, 8, 128, 255]);
    let bad_word = dice.pick(&[more.into(), 8, 255, f + (1 << 8), f + (1 << 32), f + (1 << 63), 1 << 63, u64::MAX]);
    let put_all = |bytes: &mut [u8], f: u8| (1..=n).for_each(|node| put_word(bytes, node, F, f.into()));
    match name {
        OTHER_F => bytes[1] = other,
        BAD_F => bytes[1] = bad,
        OTHER_F_OF_RECORD => put_word(bytes, node, F, other.into()),
        BAD_F_OF_RECORD => put_word(bytes, node, F, bad_word),
        OTHER_F_OF_RECORDS => put_all(bytes, other),
        OTHER_F_OF_ALL => {
            bytes[1] = other;
            put_all(bytes, other);
        }
        BAD_F_OF_ALL => {
            bytes[1] = bad;
            put_all(bytes, bad);
        }
        STOPS => (0..dice.below(3)).for_each(|_| bytes[block(1 + dice.below(n))] = dice.pick(&[1, 2, 255])),
        OTHER_N => bytes[0] = dice.pick(&[0, n as u8 - 1, n as u8 + 1, 17, 255]),
        OTHER_N_OF_RECORD => put_word(bytes, node, N, dice.pick(&[0, n as u64 - 1, n as u64 + 1, 17])),
        OTHER_OWN_OF_RECORD => put_word(bytes, node, OWN, dice.below(n + 2) as u64),
        LENGTH => bytes.resize(dice.pick(&[0, 1, 2, size(n) - 1, size(n) + 1, size(n + 1)]), 0),
        _ => (),
    }
}

/// What happens next: mostly something that can.
fn event(dice: &mut Dice, cluster: &Cluster) -> Event {
    let n = cluster.n();
    let node = if dice.chance(950) { 1 + dice.below(n) } else { dice.pick(&[0, n + 1, usize::MAX]) };
    let extent = if dice.chance(30) { Extent::Cut(dice.below(12)) } else { Extent::Whole };
    let pairs = (1..=n).flat_map(|from| (1..=n).map(move |to| (from, to)));
    let waiting: Vec<_> = pairs.filter(|&(from, to)| !cluster.channel(from, to).is_empty()).collect();
    match dice.below(20) {
        0 => Event::Stop { node },
        1 => Event::Deliver { from: node, to: 1 + dice.below(n), extent },
        2 => Event::Begin { node, operation: Operation::Scan, extent },
        3 | 4 => Event::Begin { node, operation: Operation::Update(report(dice)), extent },
        _ if waiting.is_empty() => Event::Begin { node, operation: Operation::Scan, extent },
        _ => {
            let (from, to) = dice.pick(&waiting);
            Event::Deliver { from, to, extent }
        }
    }
}

#[cfg(test)]
mod tests {
    use super::*;

    #[test]
    fn the_places_of_a_cluster() {
        assert_eq!([1, 16].map(size), [2 + 73353, 2 + 16 * 73353]);
        assert_eq!((block(1), block(2), count(1, 1), count(16, 1)), (2, 73355, 3179, 3179 + 15 * 4386));
    }

    /// A fresh cluster is usable, and each change that is meant to spoil it does.
    #[test]
    fn changed_copies_are_unusable() {
        let mut dice = Dice::new(1);
        for n in 1..=NODES {
            let f = faults(&mut dice, n);
            let bytes = fresh_bytes(n, f);
            let judged = |dice: &mut Dice, name: &str| {
                let mut copy = bytes.clone();
                change(dice, &mut copy, name);
                (judge(&copy).err().map(|refusal| refusal.0), copy)
            };
            assert_eq!(judged(&mut dice, NOTHING), (None, bytes.clone()));
            for name in [BAD_F, BAD_F_OF_RECORD, BAD_F_OF_ALL, OTHER_N_OF_RECORD] {
                assert_eq!(judged(&mut dice, name).0, Some(2), "{name}");
            }
            for name in [OTHER_F, OTHER_F_OF_RECORD, OTHER_F_OF_RECORDS] {
                let (refusal, copy) = judged(&mut dice, name);
                assert_eq!(refusal, (copy != bytes).then_some(2), "{name}");
            }
            assert_eq!(judged(&mut dice, OTHER_F_OF_ALL).0, None);
            assert_eq!(judged(&mut dice, LENGTH).0, Some(12));
        }
    }
}
