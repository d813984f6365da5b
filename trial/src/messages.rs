//! Messages by chance: such as fit a record, and damaged ones.

use crate::chance::{extreme, near, noise, report};
use crate::records::nodes;
use crate::stored::{entry, heard, Words, KEPT, LAST, MAX_TAG, REQUEST, TAG};
use oracle::dice::Dice;
use oracle::message::{Message, NodeId, Tag, Value};
use oracle::wire;

/// A message whose numbers are near those that the record compares them with.
pub fn fitting(dice: &mut Dice, words: &Words, sender: NodeId) -> Message {
    let n = nodes(words);
    let writer = 1 + dice.below(n);
    let last = words[entry(LAST, writer)];
    let known = dice.pick(&[words[MAX_TAG], words[TAG], words[KEPT], last, words[heard(sender.clamp(1, n), writer)]]);
    let tag = match dice.below(20) {
        0 => extreme(dice),
        _ => near(dice, known),
    };
    let request = match dice.below(20) {
        0 => extreme(dice),
        1 | 2 => near(dice, words[REQUEST]),
        _ => words[REQUEST],
    };
    match dice.below(9) {
        0 => Message::Read { request },
        1 => Message::ReadAnswer { request, tag },
        2 => Message::Write { request, tag },
        3 => Message::WriteAnswer { request, tag: dice.pick(&[words[TAG], words[TAG], tag]) },
        4 => Message::Echo { tag },
        5 | 6 => {
            let writer = if dice.chance(30) { dice.pick(&[0, n + 1, 255]) } else { writer };
            Message::Value(Value { tag, writer, report: report(dice) })
        }
        _ => good(dice, n, tag),
    }
}

/// A good message, now and then with an entry that its tag does not allow, or for another n.
fn good(dice: &mut Dice, n: usize, tag: Tag) -> Message {
    let entries = if dice.chance(50) { dice.pick(&[n - 1, n + 1]) } else { n };
    let shown = |dice: &mut Dice| match dice.below(4) {
        0 => None,
        1 => Some(tag),
        2 => Some(tag.saturating_sub(1)),
        _ => Some(1 + dice.number() % tag.max(1)),
    };
    let present = |tag: Tag, dice: &mut Dice| (tag > 0).then(|| (tag, report(dice)));
    let mut view: Vec<_> = (0..entries).map(|_| shown(dice).and_then(|tag| present(tag, dice))).collect();
    if entries > 0 && dice.chance(150) {
        view[dice.below(entries)] = Some((dice.pick(&[0, tag.wrapping_add(1), u64::MAX]), report(dice)));
    }
    Message::Good { tag, view }
}

/// The bytes of a message, changed or mixed with others.
pub fn damage(dice: &mut Dice, bytes: &mut Vec<u8>) {
    let length = bytes.len();
    match dice.below(12) {
        0 => bytes.truncate(dice.below(length + 1)),
        1 => bytes.truncate(length.saturating_sub(1)),
        2 => bytes.push(dice.number() as u8),
        3 => {
            let more = 1 + dice.below(40);
            bytes.extend(noise(dice, more));
        }
        4 => bytes.extend(bytes.clone()),
        5 => {
            let size = dice.below(300);
            *bytes = noise(dice, size);
        }
        6 | 7 => damage_fields(dice, bytes),
        _ if length == 0 => (),
        8 | 9 => bytes[dice.below(length)] ^= 1 << dice.below(8),
        10 => bytes[dice.below(length)] = dice.pick(&[0, 1, 2, 8, 0x7f, 0x80, 0xff]),
        // The kind, which decides what may follow.
        _ => bytes[dice.below(length.min(4))] = dice.below(9) as u8,
    }
}

/// Takes the bytes apart into fields, as far as they are some, and changes one of them or their order.
fn damage_fields(dice: &mut Dice, bytes: &mut Vec<u8>) {
    let mut fields: Vec<(u8, Vec<u8>)> = vec![];
    let mut rest = &bytes[..];
    while let [mark, high, low, more @ ..] = rest {
        let size = usize::from(u16::from_be_bytes([*high, *low])).min(more.len());
        fields.push((*mark, more[..size].to_vec()));
        rest = &more[size..];
    }
    if fields.is_empty() {
        return;
    }
    let (one, other) = (dice.below(fields.len()), dice.below(fields.len()));
    match dice.below(6) {
        0 => fields.swap(one, other),
        1 => fields.insert(other, fields[one].clone()),
        2 => _ = fields.remove(one),
        3 => fields[one].0 = dice.below(8) as u8,
        4 => fields[one].1.push(dice.number() as u8),
        _ => _ = fields[one].1.pop(),
    }
    bytes.clear();
    for (mark, contents) in fields {
        bytes.push(mark);
        bytes.extend((contents.len() as u16).to_be_bytes());
        bytes.extend(contents);
    }
}

/// Some messages in a row, as an output has them, and perhaps something after them.
pub fn several(dice: &mut Dice, words: &Words) -> Vec<u8> {
    let mut bytes = vec![];
    for _ in 0..1 + dice.below(4) {
        bytes.extend(wire::write(&fitting(dice, words, 1)));
    }
    if dice.chance(300) {
        damage(dice, &mut bytes);
    }
    bytes
}
