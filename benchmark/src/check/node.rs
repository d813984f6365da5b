//! The differential run at one node: both sides get the same calls on their own copy of a record.
use super::{age, damage_record, odd_f, odd_number, some_f, Tally};
use crate::dice::Dice;
use crate::network::{Input, Lent, Network, Packing, READ};
use crate::plain::record::{LAST, MAXTAG, REQUEST, SIZE as RECORD, WAIT};
use crate::side::{is_refusal, Operation, Plain, Proved, Side};

/// The answers to frames, and those to all other calls.
pub struct Answers {
    pub frames: Tally,
    pub others: Tally,
}

/// Gives the input to both sides.
fn give_both(input: &Input, record: &mut [u8], lent: &mut Lent, answers: &mut Answers) -> u8 {
    let (mut other_record, mut other_lent) = (record.to_vec(), lent.clone());
    let told = (input.give::<Proved>(record, lent), input.give::<Plain>(&mut other_record, &mut other_lent));
    assert_eq!(told.0, told.1, "another answer to {input:?}");
    assert!(record == other_record, "another record after {input:?}");
    assert!(*lent == other_lent, "another output or view after {input:?}");
    let tally = if let Input::Frame { .. } = input { &mut answers.frames } else { &mut answers.others };
    tally[told.0 as usize] += 1;
    told.0
}

/// A network of nodes from fresh; some are made old at once. Where `damaged`, some calls come upon a copy of a record.
pub fn network(n: usize, seed: u64, calls: usize, damaged: bool, answers: &mut Answers) {
    let mut dice = Dice::new(seed);
    let f = some_f(&mut dice, n);
    let packing = match dice.below(4) {
        0 => Packing::Single,
        // The others are a quorum, and go on while node 1 waits for its frames.
        1 | 2 if f >= 1 => Packing::Full(1 + dice.below(70)),
        _ => Packing::UpTo(2 + dice.below(10)),
    };
    let mut network = Network::new(n, f, dice.number(), packing);
    if dice.chance(250) {
        network.records.iter_mut().for_each(|record| age(&mut dice, record));
    }
    for _ in 0..calls {
        let code = network.step(|_, input, record, lent| {
            if damaged && dice.chance(300) {
                strange_calls(&mut dice, n, input, record, answers);
            }
            let code = give_both(input, record, lent, answers);
            if !is_refusal(code) {
                walk(n, &lent.out[..lent.length], &mut answers.others);
            }
            code
        });
        assert!([0, 5, 6, 13].contains(&code) || code >= 100, "a network answers {code}");
    }
}

/// Calls on a damaged copy of a record, the messages and frames damaged too or made up, the output often too short.
fn strange_calls(dice: &mut Dice, n: usize, input: &Input, record: &[u8], answers: &mut Answers) {
    let mut record = record.to_vec();
    for _ in 0..dice.below(3) {
        damage_record(dice, n, &mut record);
    }
    if dice.chance(20) {
        record.resize(dice.below(2 * record.len()), 0);
    }
    for _ in 0..=dice.below(4) {
        let sender = if dice.chance(30) { odd_number(dice) as usize } else { dice.below(n) + 1 };
        let input = match dice.below(10) {
            0 => Input::Begin(Operation::Scan),
            1 => Input::Begin(Operation::Update(dice.number().to_be_bytes())),
            2 | 3 => input.clone(),
            4 | 5 => Input::Frame { sender, bytes: made_up_frame(dice, n, &record) },
            _ => Input::Message { sender, bytes: made_up(dice, n, &record) },
        };
        let room = input.room();
        let mut lent = Lent::new(if dice.chance(50) { dice.below(room + 100) } else { room });
        give_both(&input, &mut record, &mut lent, answers);
    }
}

/// Some messages one after the other, damaged or not, and perhaps reads before or behind them, up to too many.
fn made_up_frame(dice: &mut Dice, n: usize, record: &[u8]) -> Vec<u8> {
    let made_up: Vec<u8> = (0..dice.below(6)).flat_map(|_| made_up(dice, n, record)).collect();
    let reads = READ.repeat(if dice.chance(200) { dice.below(110) } else { 0 });
    if dice.chance(500) {
        [reads, made_up].concat()
    } else {
        [made_up, reads].concat()
    }
}

/// A message whose numbers are near those of the record, in which a byte may be damaged.
fn made_up(dice: &mut Dice, n: usize, record: &[u8]) -> Vec<u8> {
    let near = |dice: &mut Dice, at: usize| {
        let x = record.get(at..at + 8).map_or(0, |b| u64::from_be_bytes(b.try_into().unwrap()));
        x.wrapping_add(dice.below(3) as u64).wrapping_sub(dice.below(2) as u64)
    };
    // The request number; the top tag, the round's tag, or a last tag.
    let at = [MAXTAG, WAIT + 24, LAST + 16 * dice.below(n)][dice.below(3)];
    let numbers = [dice.below(7) as u64 + 1, near(dice, REQUEST), dice.below(n) as u64 + 1, near(dice, at)];
    let report = dice.number().to_be_bytes();
    let view = record.get(LAST..LAST + 16 * n).unwrap_or(&[]);
    let (mut bytes, mut length) = (vec![0; 274], 0);
    if Plain::write(n, &numbers, &report, view, &mut bytes, &mut length) != 0 {
        length = dice.below(40);
    }
    bytes.truncate(length);
    if dice.chance(100) && length > 0 {
        bytes[dice.below(length)] = dice.below(9) as u8;
    }
    bytes
}

/// The message at the front of the bytes, by both sides; its length, 0 where there is none.
fn next_both(n: usize, bytes: &[u8], tally: &mut Tally) -> usize {
    let (mut one, mut two) = ((0, 9), (0, 9));
    let told = (Proved::next(n, bytes, &mut one.0, &mut one.1), Plain::next(n, bytes, &mut two.0, &mut two.1));
    assert_eq!((told.0, one), (told.1, two), "the next of {bytes:?}");
    tally[told.0 as usize] += 1;
    one.0
}

/// Walks an output of n nodes.
fn walk(n: usize, out: &[u8], tally: &mut Tally) {
    let mut at = 0;
    while at < out.len() {
        let length = next_both(n, &out[at..], tally);
        assert!(length > 0, "no message in an output");
        at += length;
    }
}

/// Fresh records of any numbers and lengths, and walks over any bytes.
pub fn strange_nodes(seed: u64, tally: &mut Tally) {
    let mut dice = Dice::new(seed);
    for _ in 0..20_000 {
        let n = if dice.chance(900) { dice.below(16) + 1 } else { odd_number(&mut dice) as usize };
        let own = if dice.chance(900) { dice.below(17) } else { odd_number(&mut dice) as usize };
        let f = odd_f(&mut dice, n);
        let mut one = vec![9; if dice.chance(900) { RECORD } else { dice.below(4000) }];
        let mut two = one.clone();
        let told = (Proved::node_fresh(n, f, own, &mut one), Plain::node_fresh(n, f, own, &mut two));
        assert_eq!(told.0, told.1, "a fresh node {own} of {n}, f = {f}");
        assert!(one == two, "the bytes of a fresh node {own} of {n}, f = {f}");
        tally[told.0 as usize] += 1;
        let mut bytes = made_up(&mut dice, n.clamp(1, 16), &one);
        bytes.resize(dice.below(300), dice.number() as u8);
        next_both(n, &bytes, tally);
    }
}
