//! What a random session is like: how many nodes may stop, how often things happen, and how its channels run.

use crate::cluster::most_faults;
use crate::dice::Dice;
use crate::message::NodeId;

/// An f for n nodes: every third time the largest, else any.
pub fn faults(dice: &mut Dice, n: usize) -> usize {
    let any = dice.below(most_faults(n) + 1);
    dice.pick(&[most_faults(n), any, any])
}

/// How often things happen in one session, in a thousand events.
pub struct Habits {
    pub begins: usize,
    /// Of the begins, the share of updates.
    pub updates: usize,
    pub stops: usize,
    pub cuts: usize,
    pub bad_lines: usize,
    /// Events that are likely refused: wrong numbers, empty channels, open or stopped nodes.
    pub misplaced: usize,
    /// How often the weather changes.
    pub changes: usize,
    /// A node whose operations are kept from ending by a round of their own, if that can be helped: while the others
    /// update as fast as they can, it comes to its third round and has to borrow.
    pub victim: Option<NodeId>,
}

impl Habits {
    pub fn draw(dice: &mut Dice, n: usize) -> Habits {
        let victim = dice.chance(500).then(|| 1 + dice.below(n));
        Habits {
            victim,
            begins: if victim.is_some() { 900 } else { dice.pick(&[50, 200, 500, 900]) },
            updates: dice.pick(&[300, 600, 800, 950]),
            stops: dice.pick(&[0, 1, 3]),
            cuts: dice.pick(&[0, 2, 4]),
            bad_lines: dice.pick(&[0, 5, 20]),
            misplaced: dice.pick(&[2, 10, 30]),
            changes: dice.pick(&[3, 10, 40]),
        }
    }
}

/// How the channels run for a while: how likely a waiting message of each is the next.
pub struct Weather(Vec<Vec<usize>>);

impl Weather {
    pub fn draw(dice: &mut Dice, n: usize) -> Weather {
        let node = 1 + dice.below(n);
        let other = 1 + dice.below(n);
        let kind = dice.below(7);
        let weight = |from: NodeId, to: NodeId, dice: &mut Dice| match kind {
            // All alike.
            0 => 8,
            // Each at its own speed.
            1 => dice.pick(&[1, 2, 8, 32]),
            // Some starved.
            2 => dice.pick(&[0, 4, 8, 8]),
            // One node hears little, or nothing.
            3 if to == node => dice.pick(&[0, 1]),
            // One node is heard little.
            4 if from == node => 1,
            // One channel in bursts, another starved.
            5 if (from, to) == (node, other) => 400,
            5 if (from, to) == (other, node) => 0,
            // One node works mostly with itself and one more: the rest lags behind.
            6 if (from == node || from == other) && (to == node || to == other) => 40,
            6 => 1,
            _ => 8,
        };
        Weather((0..=n).map(|from| (0..=n).map(|to| weight(from, to, dice)).collect()).collect())
    }

    pub fn weight(&self, from: NodeId, to: NodeId) -> usize {
        self.0[from][to]
    }
}
