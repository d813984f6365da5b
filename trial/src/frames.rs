//! Frames by chance: messages that a record takes in turn, and what is nearly such a frame.

use crate::chance::noise;
use crate::messages;
use crate::records::nodes;
use crate::stored::{self, entry, Words, LAST, MAX_TAG};
use oracle::dice::Dice;
use oracle::message::{Message, NodeId, Value, LIMIT};
use oracle::record::{LEAST_OUTPUT, LONGEST_FRAME};
use oracle::wire;

/// The bytes of each message of a frame.
type Parts = Vec<Vec<u8>>;

/// A frame from a sender to the node of the record: whole messages, or with one fault or more.
pub fn frame(dice: &mut Dice, words: &Words, sender: NodeId) -> Vec<u8> {
    let mut parts = match dice.below(20) {
        // A frame has room for a hundred.
        0 => vec![wire::write(&Message::Read { request: 1 }); dice.below(121)],
        1 => {
            let bytes = wire::write(&messages::fitting(dice, words, sender));
            vec![bytes; 1 + dice.below(60)]
        }
        2 | 3 => loose(dice, words, sender),
        _ => in_turn(dice, words, sender),
    };
    if dice.chance(60) {
        let size = dice.pick(&[LONGEST_FRAME - 60, LONGEST_FRAME - 1, LONGEST_FRAME, LONGEST_FRAME + 1]);
        lengthen(dice, &mut parts, size);
    }
    if dice.chance(150) {
        let place = dice.below(parts.len() + 1);
        parts.splice(place..place, one_too_many(dice, words));
    }
    if !parts.is_empty() && dice.chance(150) {
        let (one, other) = (dice.below(parts.len()), dice.below(parts.len()));
        match dice.below(4) {
            0 => parts.swap(one, other),
            1 => parts.insert(one.max(other), parts[one.min(other)].clone()),
            _ => messages::damage(dice, &mut parts[one]),
        }
    }
    let mut bytes = parts.concat();
    match dice.below(40) {
        0 => bytes.truncate(dice.below(bytes.len() + 1)),
        1 => {
            let more = 1 + dice.below(20);
            bytes.extend(noise(dice, more));
        }
        _ => (),
    }
    bytes
}

/// How many messages are drawn for a frame.
fn drawn(dice: &mut Dice) -> usize {
    dice.pick(&[1, 1, 2, 2, 3, 3, 4, 6, 10, 20, 70])
}

/// Messages each of which the record takes as those before have left it; the others that are drawn are left out. Of a
/// record that takes none they are loose.
fn in_turn(dice: &mut Dice, words: &Words, sender: NodeId) -> Parts {
    let (mut record, mut left, mut parts) = (stored::read(words), *words, vec![]);
    for _ in 0..drawn(dice) {
        let Some(record) = &mut record else { break };
        let bytes = wire::write(&messages::fitting(dice, &left, sender));
        if record.message(sender, &bytes, LEAST_OUTPUT).is_ok() {
            left = stored::write(record);
            parts.push(bytes);
        }
    }
    if parts.is_empty() {
        loose(dice, words, sender)
    } else {
        parts
    }
}

/// Messages that fit the record as it is, whether they can come or not.
fn loose(dice: &mut Dice, words: &Words, sender: NodeId) -> Parts {
    (0..drawn(dice)).map(|_| wire::write(&messages::fitting(dice, words, sender))).collect()
}

/// Two values of a writer of which the second cannot come behind the first: its tag is smaller, or it is larger while
/// that of the first is above `max_tag`.
fn one_too_many(dice: &mut Dice, words: &Words) -> [Vec<u8>; 2] {
    let writer = 1 + dice.below(nodes(words));
    let tag = words[entry(LAST, writer)].max(words[MAX_TAG].saturating_add(1)).clamp(2, LIMIT);
    let next = if tag == LIMIT { tag - 1 } else { dice.pick(&[tag - 1, tag + 1]) };
    [tag, next].map(|tag| wire::write(&Message::Value(Value { tag, writer, report: 0 })))
}

/// Makes a frame of just so many bytes, by reads of 15 bytes and by answers of 26 that nobody waits for: fewer than 15
/// of these leave a multiple of 15, since 11 of them have one byte more than such a multiple.
fn lengthen(dice: &mut Dice, parts: &mut Parts, size: usize) {
    let length = |parts: &Parts| parts.iter().map(Vec::len).sum::<usize>();
    while length(parts) + 14 * 26 > size {
        parts.pop();
    }
    let left = size - length(parts);
    let answers = 11 * left % 15;
    let reads = (left - 26 * answers) / 15;
    let [answer, read] = [Message::WriteAnswer { request: LIMIT, tag: LIMIT }, Message::Read { request: LIMIT }];
    let more = [vec![wire::write(&answer); answers], vec![wire::write(&read); reads]].concat();
    let place = dice.below(parts.len() + 1);
    parts.splice(place..place, more);
}

#[cfg(test)]
mod tests {
    use super::*;
    use crate::records::crowded;
    use oracle::record::CANNOT_COME_NOW;

    /// Whole messages, of just so many bytes.
    #[test]
    fn a_frame_is_lengthened_to_its_size() {
        let mut dice = Dice::new(1);
        for size in LONGEST_FRAME - 60..=LONGEST_FRAME + 1 {
            let words = crowded(&mut dice);
            let mut parts = in_turn(&mut dice, &words, 1);
            parts.retain(|part| wire::read(nodes(&words), part).is_some());
            lengthen(&mut dice, &mut parts, size);
            let messages = wire::split(nodes(&words), &parts.concat()).map(|messages| messages.len());
            assert_eq!((parts.concat().len(), messages), (size, Some(parts.len())));
        }
    }

    #[test]
    fn one_of_the_two_values_cannot_come() {
        let mut dice = Dice::new(1);
        for _ in 0..1000 {
            let words = crowded(&mut dice);
            let mut record = stored::read(&words).expect("crowded records have a wait");
            let [one, other] = one_too_many(&mut dice, &words);
            let answers = [one, other].map(|value| record.message(1, &value, LEAST_OUTPUT).err());
            assert!(answers.contains(&Some(CANNOT_COME_NOW)), "{words:?}");
        }
    }
}
