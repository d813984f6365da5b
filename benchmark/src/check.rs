//! The differential run: both sides get the same events on their own copy of a cluster, or the same calls on their own
//! copy of a node, and every answer, every lent view and every byte must be the same. Some are damaged on the way.
mod codec;
mod node;
mod page;

use crate::dice::Dice;
use crate::plain::bytes::{put_word, LIMIT};
use crate::plain::cluster::{block_at, channel_at, CAPACITY, SLOT};
use crate::plain::record::{F, HEARD, LAST, MAXTAG, REQUEST, SIZE as RECORD, WAIT};
use crate::side::{Event, Plain, Proved, Side, View, SCAN};
use crate::workload::waiting;

/// Numbers near the limits.
fn odd_number(dice: &mut Dice) -> u64 {
    let near = [0, 1, 2, 3, 4, 5, 16, 17, 255, 256, LIMIT - 5, LIMIT - 4, LIMIT - 1, LIMIT, LIMIT + 1, u64::MAX];
    match dice.below(3) {
        0 => dice.number() >> dice.below(64),
        _ => near[dice.below(near.len())],
    }
}

/// An f that n nodes may have.
fn some_f(dice: &mut Dice, n: usize) -> usize {
    dice.below(Plain::most_faults(n) + 1)
}

/// An f that n nodes may have, one too many, or one near the limits.
fn odd_f(dice: &mut Dice, n: usize) -> usize {
    match dice.below(4) {
        0 => Plain::most_faults(n) + dice.below(2),
        1 => odd_number(dice) as usize,
        _ => some_f(dice, n),
    }
}

/// What a session prefers: a node that sends and one that hears slowly, and how often operations begin and nodes stop.
struct Habits {
    sender: usize,
    receiver: usize,
    begins: usize,
    stops: usize,
}

fn some_event(dice: &mut Dice, n: usize, habits: &Habits, b: &[u8]) -> Event {
    let odd = dice.chance(10);
    let node = |dice: &mut Dice| if odd { odd_number(dice) as usize } else { dice.below(n) + 1 };
    let cut = dice.chance(habits.stops).then(|| if odd { odd_number(dice) as usize } else { dice.below(40) });
    if dice.chance(habits.begins) {
        return match dice.below(2) {
            0 => Event::Update { node: node(dice), report: (dice.number() >> dice.below(64)).to_be_bytes(), cut },
            _ => Event::Scan { node: node(dice), cut },
        };
    }
    if dice.chance(habits.stops) {
        return Event::Stop { node: node(dice) };
    }
    for _ in 0..2 * n * n {
        let (from, to) = (dice.below(n) + 1, dice.below(n) + 1);
        let slow = from == habits.sender || to == habits.receiver;
        if !odd && waiting(b, from, to) > 0 && (!slow || dice.chance(50)) {
            return Event::Deliver { from, to, cut };
        }
    }
    Event::Deliver { from: node(dice), to: node(dice), cut }
}

/// Damages a record: a word, f, the request number and the wait, an entry of a view past n, or any byte.
fn damage_record(dice: &mut Dice, n: usize, record: &mut [u8]) {
    match dice.below(9) {
        0..=2 => put_word(record, 8 * dice.below(HEARD / 8), odd_number(dice)),
        3 => put_word(record, HEARD + 8 * dice.below((RECORD - HEARD) / 8), odd_number(dice)),
        4 => put_word(record, F, odd_f(dice, n) as u64),
        5..=7 => {
            // The request number near its limit, and the wait's code, kind and round.
            put_word(record, REQUEST, LIMIT - dice.below(7) as u64);
            for word in 0..3 {
                if dice.chance(300) {
                    put_word(record, WAIT + 8 * word, dice.below(6) as u64);
                }
            }
        }
        _ if n < 16 => {
            // A report past n, often one that refusal 2 lets pass: no view may show it.
            let entry = LAST + 256 * dice.below(4) + 16 * (n + dice.below(16 - n));
            put_word(record, entry, dice.below(3) as u64);
            put_word(record, entry + 8, dice.number());
        }
        _ => record[dice.below(RECORD)] = dice.number() as u8,
    }
}

/// Damages a place of a cluster: in a record, f, the head of a channel, the oldest message, or any byte.
fn damage(dice: &mut Dice, n: usize, b: &mut [u8]) {
    let block = block_at(dice.below(n) + 1);
    let channel = block + channel_at(dice.below(n) + 1);
    match dice.below(15) {
        0..=7 => damage_record(dice, n, &mut b[block + 1..block + 1 + RECORD]),
        8 => b[block] = dice.below(3) as u8,
        9 => b[channel] = dice.below(18) as u8,
        10 => b[channel + 1] = dice.number() as u8,
        11 => {
            let slot = channel + 2 + SLOT * (b[channel + 1] as usize % CAPACITY);
            b[slot + dice.below(34)] = dice.below(9) as u8;
        }
        12 => b[1] = odd_f(dice, n) as u8,
        13 => {
            // Another f everywhere: more nodes may have stopped than it allows, and other quorums count.
            let f = odd_f(dice, n);
            b[1] = f as u8;
            for c in 1..=n {
                put_word(b, block_at(c) + 1 + F, f as u64);
            }
        }
        _ => {
            let at = dice.below(b.len());
            b[at] = dice.number() as u8;
        }
    }
}

struct Pair {
    proved: Vec<u8>,
    plain: Vec<u8>,
    views: (View, View),
}

impl Pair {
    fn new(bytes: Vec<u8>) -> Pair {
        Pair { plain: bytes.clone(), proved: bytes, views: ([7; 256], [7; 256]) }
    }

    fn same(&self, told: (u8, u8), what: &dyn std::fmt::Debug) -> u8 {
        assert_eq!(told.0, told.1, "another answer to {what:?}");
        assert!(self.views.0 == self.views.1, "another view after {what:?}");
        assert!(self.proved == self.plain, "other bytes after {what:?}");
        told.0
    }

    fn fresh(&mut self, n: usize, f: usize) -> u8 {
        let told = (Proved::fresh(n, f, &mut self.proved), Plain::fresh(n, f, &mut self.plain));
        self.same(told, &("fresh", n, f))
    }

    fn apply(&mut self, event: &Event) -> u8 {
        let told = (
            Proved::apply(&mut self.proved, event, &mut self.views.0),
            Plain::apply(&mut self.plain, event, &mut self.views.1),
        );
        let past = 16 * self.proved.first().map_or(0, |&n| n as usize);
        if told.0 >= SCAN {
            assert!(self.views.0[past..].iter().all(|&x| x == 0), "a report past n after {event:?}");
        }
        self.same(told, event)
    }

    fn damage(&mut self, dice: &mut Dice, n: usize) {
        damage(dice, n, &mut self.proved);
        self.plain.copy_from_slice(&self.proved);
    }
}

/// How often each answer was given.
type Tally = [u64; 256];

/// The top tag and the last request number of a record, near their limit.
fn age(dice: &mut Dice, record: &mut [u8]) {
    for at in [MAXTAG, REQUEST] {
        put_word(record, at, LIMIT - dice.below(30) as u64);
    }
}

/// One cluster from fresh; some are made old at once. Where `damaged`, some events come upon a damaged cluster, which
/// is put right again after a few of them.
fn session(n: usize, seed: u64, events: usize, damaged: bool, tally: &mut Tally) {
    let mut dice = Dice::new(seed);
    let habits = Habits {
        sender: dice.below(2 * n),
        receiver: dice.below(2 * n),
        begins: 20 + dice.below(200),
        stops: dice.below(3),
    };
    let mut pair = Pair::new((0..Proved::size(n)).map(|_| dice.number() as u8).collect());
    tally[pair.fresh(n, some_f(&mut dice, n)) as usize] += 1;
    if dice.chance(250) {
        for block in (1..=n).map(block_at) {
            age(&mut dice, &mut pair.proved[block + 1..]);
        }
        pair.plain.copy_from_slice(&pair.proved);
    }
    let mut spare = pair.proved.clone();
    for _ in 0..events {
        if damaged && dice.chance(50) {
            spare.copy_from_slice(&pair.proved);
            for _ in 0..=dice.below(3) {
                pair.damage(&mut dice, n);
            }
            for _ in 0..=dice.below(12) {
                let code = pair.apply(&some_event(&mut dice, n, &habits, &pair.proved));
                tally[code as usize] += 1;
            }
            pair.proved.copy_from_slice(&spare);
            pair.plain.copy_from_slice(&spare);
        }
        tally[pair.apply(&some_event(&mut dice, n, &habits, &pair.proved)) as usize] += 1;
    }
}

/// Lent bytes of a wrong length, or with any n stated in them; and fresh clusters of any n and f.
fn strange_bytes(seed: u64, tally: &mut Tally) {
    let mut dice = Dice::new(seed);
    let habits = Habits { sender: 0, receiver: 0, begins: 300, stops: 100 };
    let one = Proved::size(1);
    for n in 0..=18 {
        for len in [0, 1, 2, 3, 100, one - 1, one, one + 1, Proved::size(n)] {
            let mut pair = Pair::new((0..len).map(|_| dice.number() as u8).collect());
            if len > 0 {
                pair.proved[0] = n as u8;
                pair.plain[0] = n as u8;
            }
            for _ in 0..4 {
                tally[pair.apply(&some_event(&mut dice, 3, &habits, &[])) as usize] += 1;
            }
            for _ in 0..4 {
                let f = odd_f(&mut dice, n);
                tally[pair.fresh(n, f) as usize] += 1;
            }
        }
    }
}

/// Runs everything; panics at the first difference.
pub fn check(seeds: u64) {
    for n in (0..=20).chain([usize::MAX / 2, usize::MAX]) {
        assert_eq!(Proved::size(n), Plain::size(n));
        assert_eq!(Proved::most_faults(n), Plain::most_faults(n));
    }
    let mut events: Tally = [0; 256];
    for seed in 0..seeds {
        for n in 1..=16 {
            session(n, 1000 * seed + n as u64, 1000 + 6000 / n, seed % 2 == 1, &mut events);
        }
        strange_bytes(seed, &mut events);
    }
    assert_eq!(Proved::node_size(), Plain::node_size());
    let mut answers = node::Answers { frames: [0; 256], others: [0; 256] };
    for seed in 0..seeds {
        for n in 1..=16 {
            node::network(n, 1000 * seed + n as u64, 5000, seed % 2 == 1, &mut answers);
        }
        node::strange_nodes(seed, &mut answers.others);
    }
    let mut messages: Tally = [0; 256];
    codec::codec(1, 200_000, &mut messages);
    let mut pages: Tally = [0; 256];
    page::pages(2, 200_000, &mut pages);
    let node::Answers { frames, others } = answers;
    let tallies = [
        ("cluster events", events),
        ("one node", others),
        ("frames", frames),
        ("messages and figures", messages),
        ("pages", pages),
    ];
    for (what, tally) in tallies {
        println!("{what}: {} answers, all the same", tally.iter().sum::<u64>());
        for (code, count) in tally.iter().enumerate().filter(|(_, &count)| count > 0) {
            println!("  answer {code:2}: {count}");
        }
    }
}
