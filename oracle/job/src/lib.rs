//! What every side of the comparison takes and gives back: a job with its lent
//! buffers, the shuffle's answer, the checker's verdict, operations and codes.

pub mod codes;
mod op;

pub use op::{Op, lines};

/// A stack may not be higher than this.
pub const HEIGHT: usize = 1_024;

/// The ticks that each loop may take.
pub const TICKS: u32 = 100_000;

/// One question to the shuffler, with the buffers that it is lent. Lists are
/// top first, the spill words oldest first.
#[derive(Debug, Clone, PartialEq, Eq)]
pub struct Job {
    pub start: Vec<u32>,
    /// The whole spill buffer; the first `filled` words are in use.
    pub spill: Vec<u32>,
    pub filled: usize,
    /// The number of the slot that the first spill word stands for.
    pub first: u32,
    pub target: Vec<u32>,
    pub swap: u8,
    pub dup: u8,
    /// The operation words, two for each operation.
    pub ops: Vec<u32>,
}

impl Job {
    /// How many operations the lent words can hold.
    pub fn room(&self) -> usize {
        self.ops.len() / 2
    }
}

/// What a shuffle answers; its lists stand in the job's buffers.
#[derive(Debug, Clone, Default, PartialEq, Eq)]
pub struct Answer {
    pub code: u32,
    pub shrink_ticks: u32,
    pub grow_ticks: u32,
    /// Operations written.
    pub ops: usize,
    /// Slots filled at the end.
    pub slots: usize,
    /// The end stack, top first.
    pub stack: Vec<u32>,
}

impl Answer {
    /// The answer of codes 1 to 5: nothing but the code.
    pub fn refused(code: u32) -> Self {
        Self { code, ..Self::default() }
    }
}

/// What the replay checker answers.
#[derive(Debug, Clone, Copy, Default, PartialEq, Eq)]
pub struct Verdict {
    pub code: u32,
    pub index: usize,
    pub gas: u64,
    pub filled: usize,
}
