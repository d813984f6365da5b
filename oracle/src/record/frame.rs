//! Frames: one or more whole messages of one sender, handled as if delivered one by one, or not at all.

use super::{Record, BAD_LENGTH, NOT_OF_THE_LAYOUT};
use crate::cluster::{demand, Refusal, NO_SUCH_NODE};
use crate::message::NodeId;
use crate::node::Step;
use crate::wire;

pub const BAD_FRAME: Refusal = Refusal(14);

/// The shortest output buffer that a frame takes.
pub const LEAST_FRAME_OUTPUT: usize = 8192;

/// The bytes of the longest frame.
pub const LONGEST_FRAME: usize = 1500;

impl Record {
    /// Handles a frame, with an output buffer of this many bytes: what each of its messages gave, in turn. All are read
    /// before the first is handled, and it is a copy that they are handled on, so a refused frame changes nothing.
    pub fn frame(&mut self, sender: NodeId, frame: &[u8], output: usize) -> Result<Vec<Step>, Refusal> {
        demand(output >= LEAST_FRAME_OUTPUT, BAD_LENGTH)?;
        self.judge()?;
        demand((1..=self.n).contains(&sender), NO_SUCH_NODE)?;
        demand((1..=LONGEST_FRAME).contains(&frame.len()), BAD_FRAME)?;
        let messages = wire::split(self.n, frame).ok_or(NOT_OF_THE_LAYOUT)?;
        let mut after = self.clone();
        let in_turn = messages.into_iter().map(|message| after.message(sender, message, output));
        let steps = in_turn.collect::<Result<_, _>>()?;
        *self = after;
        Ok(steps)
    }
}
