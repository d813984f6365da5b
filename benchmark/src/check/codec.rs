//! Messages and figures: both sides get the same numbers, views and bytes.
use super::{odd_number, Tally};
use crate::dice::Dice;
use crate::side::{Numbers, Plain, Proved, Side};

pub fn some_view(dice: &mut Dice, n: usize) -> Vec<u8> {
    let mut view = Vec::new();
    for _ in 0..n {
        let tag = if dice.chance(300) {
            0
        } else if dice.chance(900) {
            dice.number() >> 20
        } else {
            odd_number(dice)
        };
        let report = if tag == 0 && dice.chance(970) { 0 } else { dice.number() };
        view.extend(tag.to_be_bytes());
        view.extend(report.to_be_bytes());
    }
    if dice.chance(50) {
        view.resize(dice.below(300), 0);
    }
    view
}

/// Messages of all kinds, written, then read whole, damaged or shortened; and figures of views.
pub fn codec(seed: u64, rounds: usize, tally: &mut Tally) {
    let mut dice = Dice::new(seed);
    for _ in 0..rounds {
        let n = if dice.chance(950) { dice.below(16) + 1 } else { odd_number(&mut dice) as usize };
        let view = some_view(&mut dice, n.min(18));
        let kind = if dice.chance(950) { dice.below(7) as u64 + 1 } else { odd_number(&mut dice) };
        let number = |dice: &mut Dice| if dice.chance(800) { dice.number() >> 2 } else { odd_number(dice) };
        let writer = if dice.chance(900) { dice.below(17) as u64 } else { odd_number(&mut dice) };
        let numbers: Numbers = [kind, number(&mut dice), writer, number(&mut dice)];
        let report = dice.number().to_be_bytes();
        let room = if dice.chance(900) { 274 } else { dice.below(300) };
        let (mut one, mut two) = (vec![9; room], vec![9; room]);
        let mut sizes = (300, 300);
        let told = (
            Proved::write(n, &numbers, &report, &view, &mut one, &mut sizes.0),
            Plain::write(n, &numbers, &report, &view, &mut two, &mut sizes.1),
        );
        assert_eq!((told.0, sizes.0), (told.1, sizes.1), "writing {numbers:?}");
        assert_eq!(one, two, "written {numbers:?} {report:?}");
        tally[told.0 as usize] += 1;
        let mut bytes = one;
        bytes.truncate(if told.0 == 0 && dice.chance(900) { sizes.0 } else { dice.below(300) });
        if dice.chance(300) && !bytes.is_empty() {
            let at = dice.below(bytes.len());
            bytes[at] = dice.number() as u8;
        }
        let (mut one, mut two) = (([5; 4], [5; 8]), ([5; 4], [5; 8]));
        let told = (Proved::read(n, &bytes, &mut one.0, &mut one.1), Plain::read(n, &bytes, &mut two.0, &mut two.1));
        assert_eq!((told.0, one), (told.1, two), "reading {bytes:?}");
        tally[told.0 as usize] += 1;
        let (mut one, mut two) = ([5; 4], [5; 4]);
        let told = (Proved::figures(n, &view, &mut one), Plain::figures(n, &view, &mut two));
        assert_eq!((told.0, one), (told.1, two), "figures of {view:?}");
        tally[told.0 as usize] += 1;
    }
}
