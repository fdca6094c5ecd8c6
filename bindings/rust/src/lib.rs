//! Safe calls into Njallavet's proved shuffler and replay checker.
//!
//! The archive behind them answers every input, and what its C interface asks of a pointer a Rust slice has by itself, so no call of this
//! crate has a condition. Stacks are slices, top first; an operation is two words in a buffer that the caller lends.
//!
//! ```
//! use njallavet::{operations, shuffle, Limits, Spill};
//!
//! let (mut slots, mut words) = ([0; 64], [0; 256]);
//! let spill = Spill { words: &mut slots, filled: 0, first: 0 };
//! let limits = Limits { max_swap_depth: 3, max_dup_depth: 2 };
//! let answer = shuffle(&[3, 2, 9], spill, &[3, 2, 2], limits, &mut words).done()?; // or what it is refused with, a `Refusal`
//! for op in operations(&words[..2 * answer.ops]).flatten() {
//!     println!("{op}"); // Dup(1), Swap(3), Pop
//! }
//! # use njallavet::Op;
//! # let list: Vec<_> = operations(&words[..2 * answer.ops]).flatten().collect();
//! # assert_eq!(list, [Op::Dup(1), Op::Swap(3), Op::Pop]);
//! # Ok::<(), njallavet::Refusal>(())
//! ```

#![deny(missing_docs, unsafe_code)]

mod codes;
#[allow(unsafe_code)]
mod ffi;
mod state;

pub use codes::{Fault, NoCode, Refusal};
pub use state::State;
use std::fmt;

/// One operation of the machine.
#[derive(Debug, Clone, Copy, PartialEq, Eq, Hash)]
pub enum Op {
    /// Exchanges the top and the value at this depth.
    Swap(u8),
    /// Pushes a copy of the value at this depth; 0 is the top, so `Dup(0)` is the machine's DUP1.
    Dup(u8),
    /// Drops the top.
    Pop,
    /// Moves the top into the slot with this number.
    Store(u32),
    /// Pushes what the slot with this number holds.
    Load(u32),
}

impl Op {
    /// The operation of a record of two words, if it is one.
    pub fn from_words(kind: u32, argument: u32) -> Option<Op> {
        match (kind, argument) {
            (1, k) => u8::try_from(k).ok().map(Op::Swap),
            (2, k) => u8::try_from(k).ok().map(Op::Dup),
            (3, 0) => Some(Op::Pop),
            (4, id) => Some(Op::Store(id)),
            (5, id) => Some(Op::Load(id)),
            _ => None,
        }
    }

    /// Its record of two words: the kind and the argument.
    pub fn to_words(self) -> [u32; 2] {
        match self {
            Op::Swap(depth) => [1, depth.into()],
            Op::Dup(depth) => [2, depth.into()],
            Op::Pop => [3, 0],
            Op::Store(id) => [4, id],
            Op::Load(id) => [5, id],
        }
    }
}

/// The driver's form: `Swap(3)`, `Dup(1)`, `Pop`, `store(5)`, `load(5)`.
impl fmt::Display for Op {
    fn fmt(&self, f: &mut fmt::Formatter<'_>) -> fmt::Result {
        match self {
            Op::Swap(depth) => write!(f, "Swap({depth})"),
            Op::Dup(depth) => write!(f, "Dup({depth})"),
            Op::Pop => write!(f, "Pop"),
            Op::Store(id) => write!(f, "store({id})"),
            Op::Load(id) => write!(f, "load({id})"),
        }
    }
}

/// How deep a swap and a dup may reach. The default is the machine's: SWAP16, and DUP16, which copies depth 15.
#[derive(Debug, Clone, Copy, PartialEq, Eq)]
pub struct Limits {
    /// The deepest `Swap`; 0 is refused with `Limit`.
    pub max_swap_depth: u8,
    /// The deepest `Dup`.
    pub max_dup_depth: u8,
}

impl Default for Limits {
    fn default() -> Limits {
        Limits {
            max_swap_depth: 16,
            max_dup_depth: 15,
        }
    }
}

/// What a shuffle answers. The counts and the stack hold for a refusal of 6 to 12 too: everything before the refused operation stands.
#[derive(Debug, Clone, PartialEq, Eq)]
#[must_use = "a shuffle may be refused"]
pub struct Answer {
    /// Nothing where the shuffle is done.
    pub refusal: Option<Refusal>,
    /// Ticks passed in shrink.
    pub shrink_ticks: u32,
    /// Ticks passed in grow.
    pub grow_ticks: u32,
    /// Operations written by this call.
    pub ops: usize,
    /// Slots filled after it, those that were filled before it too.
    pub slots: usize,
    /// The end stack, top first.
    pub stack: Vec<u32>,
}

impl Answer {
    /// The answer of a shuffle that is done, or what it was refused with.
    pub fn done(self) -> Result<Answer, Refusal> {
        match self.refusal {
            None => Ok(self),
            Some(refusal) => Err(refusal),
        }
    }

    fn of(answer: &ffi::Answer) -> Answer {
        Answer {
            refusal: known(answer.code),
            shrink_ticks: answer.shrink_ticks,
            grow_ticks: answer.grow_ticks,
            ops: answer.ops,
            slots: answer.slots,
            stack: answer.stack.values().to_vec(),
        }
    }
}

/// The verdict of the checker on a list.
#[derive(Debug, Clone, Copy, PartialEq, Eq)]
#[must_use = "a list may be at fault"]
pub struct Verdict {
    /// Nothing where the list is accepted.
    pub fault: Option<Fault>,
    /// Of the operation at fault; the number of operations where none is, 0 before any was looked at.
    pub index: usize,
    /// Of the operations replayed.
    pub gas: u64,
    /// Slots filled after them.
    pub filled: usize,
}

impl Verdict {
    /// The verdict on a list that is accepted, or its first fault.
    pub fn accepted(self) -> Result<Verdict, Fault> {
        match self.fault {
            None => Ok(self),
            Some(fault) => Err(fault),
        }
    }
}

// 0 is no code. It is proved of the archive that no other number comes than those of the table; one that does is no success.
fn known<C: TryFrom<u32, Error = NoCode>>(code: u32) -> Option<C> {
    (code != 0)
        .then(|| C::try_from(code).unwrap_or_else(|other| panic!("the archive answered {other}")))
}

/// The stored values, and the slots for more.
#[derive(Debug)]
pub struct Spill<'a> {
    /// The buffer: a word for each slot.
    pub words: &'a mut [u32],
    /// How many of its words are stored values, oldest first.
    pub filled: usize,
    /// The number of its first slot.
    pub first: u32,
}

/// Turns the stack `start` into `target` (both top first). Operations are written to the low end of `ops` as words, stored values to the
/// spill buffer after the filled ones; all other words stay as they are.
pub fn shuffle(
    start: &[u32],
    spill: Spill<'_>,
    target: &[u32],
    limits: Limits,
    ops: &mut [u32],
) -> Answer {
    Answer::of(&ffi::shuffle(start, spill, target, limits, ops))
}

/// Replays operation words, whoever wrote them, from `start`. Stores replayed before the verdict stay in the spill buffer.
pub fn check(
    start: &[u32],
    spill: Spill<'_>,
    target: &[u32],
    limits: Limits,
    ops: &[u32],
) -> Verdict {
    let verdict = ffi::check(start, spill, target, limits, ops);
    Verdict {
        fault: known(verdict.code),
        index: verdict.index,
        gas: verdict.gas,
        filled: verdict.filled,
    }
}

/// The operations in a buffer's words, two words each; nothing for two words that are none.
pub fn operations(words: &[u32]) -> impl Iterator<Item = Option<Op>> + '_ {
    words
        .chunks_exact(2)
        .map(|record| Op::from_words(record[0], record[1]))
}
