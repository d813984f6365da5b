//! The differential run of pages: the proved call and both plain ones get the same views and buffers.
use super::codec::some_view;
use super::{odd_number, Tally};
use crate::dice::Dice;
use crate::side::{Plain, Proved, Side};

/// Gives counts of all lengths to the reports of a view; those beside tag 0 stay.
fn vary_counts(dice: &mut Dice, view: &mut [u8]) {
    for entry in view.chunks_exact_mut(16).filter(|entry| entry[..8] != [0; 8]) {
        for place in entry[8..].chunks_exact_mut(2) {
            let count = match dice.below(4) {
                0 => dice.pick(&[0, 9, 10, 99, 100, 999, 1000, 9999, 10000, 65535]),
                _ => dice.number() as u16 >> dice.below(16),
            };
            place.copy_from_slice(&count.to_be_bytes());
        }
    }
}

/// Pages of drawn views, in buffers of drawn lengths.
pub fn pages(seed: u64, rounds: usize, tally: &mut Tally) {
    let mut dice = Dice::new(seed);
    for _ in 0..rounds {
        let n = if dice.chance(950) { dice.below(16) + 1 } else { odd_number(&mut dice) as usize };
        let nodes = n.min(18);
        let mut view = some_view(&mut dice, nodes);
        vary_counts(&mut dice, &mut view);
        let size = 35 * (nodes + 1);
        let room = match dice.below(8) {
            0 => dice.below(700),
            1 => size - 1,
            2 => size + dice.below(100),
            _ => size,
        };
        let filling = dice.number() as u8;
        let lent = (vec![filling; room], 1000);
        let [mut one, mut two, mut three] = [lent.clone(), lent.clone(), lent];
        let told = [
            Proved::page(n, &view, &mut one.0, &mut one.1),
            Plain::page(n, &view, &mut two.0, &mut two.1),
            Plain::page_by_write(n, &view, &mut three.0, &mut three.1),
        ];
        assert!(told == [told[0]; 3], "answers {told:?} to a page of {view:?} in {room} bytes");
        assert!(one == two && one == three, "another page of {view:?} in {room} bytes");
        tally[told[0] as usize] += 1;
    }
}
