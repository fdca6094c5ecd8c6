//! The tracked state, which a run changes in place.

use crate::{ffi, Answer, Limits, Refusal};
use std::fmt;

/// A stack on its way, and how much of the two buffers belongs to it: the number of the first slot, the slots filled, the operations
/// written. The same two buffers go with it to each run.
#[derive(Clone)]
pub struct State(pub(crate) ffi::State);

impl State {
    /// A state over these values, top first, with nothing written; the first `filled` words of the spill buffer are stored values, and
    /// `first` is the number of its first slot. Refused with `Start` where there are more than 1,024 values; a run tests the rest.
    pub fn new(start: &[u32], first: u32, filled: usize) -> Result<State, Refusal> {
        let mut stack_raw = [0; 1024];
        let at = stack_raw
            .len()
            .checked_sub(start.len())
            .ok_or(Refusal::Start)?;
        stack_raw[at..].copy_from_slice(start);
        let stack_len = start.len() as u16; // at most 1,024
        Ok(State(ffi::State {
            stack: ffi::Stack {
                stack_raw,
                stack_len,
            },
            first,
            filled,
            written: 0,
        }))
    }

    /// The stack's values, top first.
    pub fn stack(&self) -> &[u32] {
        self.0.stack.values()
    }

    /// The number of the spill buffer's first slot.
    pub fn first(&self) -> u32 {
        self.0.first
    }

    /// How many slots are filled.
    pub fn filled(&self) -> usize {
        self.0.filled
    }

    /// How many operations are written: the first `2 * written()` words of the operation buffer.
    pub fn written(&self) -> usize {
        self.0.written
    }

    /// Turns the stack into `target` (top first) and leaves the state as it stands then. Operations are written after those that are there
    /// already, stored values after the filled ones; the answer counts this run's operations. A refusal of 1 to 5 leaves the state as it was.
    pub fn run(
        &mut self,
        spill: &mut [u32],
        target: &[u32],
        limits: Limits,
        ops: &mut [u32],
    ) -> Answer {
        Answer::of(&ffi::run(&mut self.0, spill, target, limits, ops))
    }
}

/// Two states are equal when their stacks' values and their three numbers are; unused places of the stacks do not count.
impl PartialEq for State {
    fn eq(&self, other: &State) -> bool {
        let numbers = |s: &State| (s.first(), s.filled(), s.written());
        self.stack() == other.stack() && numbers(self) == numbers(other)
    }
}

impl Eq for State {}

impl fmt::Debug for State {
    fn fmt(&self, f: &mut fmt::Formatter<'_>) -> fmt::Result {
        f.debug_struct("State")
            .field("stack", &self.stack())
            .field("first", &self.first())
            .field("filled", &self.filled())
            .field("written", &self.written())
            .finish()
    }
}

#[cfg(test)]
mod tests {
    use super::*;

    const LIMITS: Limits = Limits {
        max_swap_depth: 1,
        max_dup_depth: 0,
    };

    // A job that each of the codes 1 to 5 refuses: the length field, the target's height, the slots filled, the first slot, the limits.
    #[rustfmt::skip]
    const REFUSED: [(u16, usize, usize, u32, Limits, Refusal); 6] = [
        (3, 0, 1, 40, Limits { max_swap_depth: 0, max_dup_depth: 0 }, Refusal::Limit),
        (1025, 0, 1, 40, LIMITS, Refusal::Start),
        (u16::MAX, 0, 1, 40, LIMITS, Refusal::Start),
        (3, 1025, 1, 40, LIMITS, Refusal::Target),
        (2, 0, 3, 40, LIMITS, Refusal::Filled),
        (3, 0, 1, u32::MAX - 1, LIMITS, Refusal::Slots),
    ];

    /// Every word of the array has a value of its own, those that are no values of the stack too, and so has each count.
    #[test]
    fn run_codes_1_to_5_leave_every_word_of_the_state() {
        for (stack_len, height, filled, first, limits, refusal) in REFUSED {
            let stack_raw = std::array::from_fn(|i| 7 * i as u32 + 1);
            let lent = ffi::State {
                stack: ffi::Stack {
                    stack_raw,
                    stack_len,
                },
                first,
                filled,
                written: 5,
            };
            let mut state = State(lent);
            let (mut spill, mut ops) = ([8, 9], [1, 2, 3, 4]);
            let answer = state.run(&mut spill, &vec![1; height], limits, &mut ops);
            assert_eq!(answer.refusal, Some(refusal));
            assert_eq!(
                (
                    answer.shrink_ticks,
                    answer.grow_ticks,
                    answer.ops,
                    answer.slots
                ),
                (0, 0, 0, 0)
            );
            assert!(answer.stack.is_empty());
            assert!(state.0.stack.stack_raw == lent.stack.stack_raw);
            let numbers = |s: &ffi::State| (s.stack.stack_len, s.first, s.filled, s.written);
            assert_eq!(numbers(&state.0), numbers(&lent));
            assert_eq!((spill, ops), ([8, 9], [1, 2, 3, 4]));
        }
    }
}
