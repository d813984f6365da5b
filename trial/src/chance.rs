//! Numbers and bytes by chance.

use oracle::dice::Dice;
use oracle::message::{Report, LIMIT};

/// A number, the one before it or the one after it.
pub fn near(dice: &mut Dice, number: u64) -> u64 {
    number.wrapping_add(dice.pick(&[0, 1, u64::MAX]))
}

/// A number at one end of what there is.
pub fn extreme(dice: &mut Dice) -> u64 {
    dice.pick(&[0, 1, LIMIT - 1, LIMIT, LIMIT + 1, u64::MAX])
}

/// So many bytes of anything.
pub fn noise(dice: &mut Dice, size: usize) -> Vec<u8> {
    let mut bytes: Vec<u8> = (0..size.div_ceil(8)).flat_map(|_| dice.number().to_be_bytes()).collect();
    bytes.truncate(size);
    bytes
}

/// A report by chance: zero, with a single bit, or any.
pub fn report(dice: &mut Dice) -> Report {
    match dice.below(4) {
        0 => 0,
        1 => 1 << dice.below(64),
        _ => dice.number(),
    }
}
