//! The numbers that stand for each outcome.

pub const DONE: u32 = 0;
pub const LIMIT: u32 = 1;
pub const START: u32 = 2;
pub const TARGET: u32 = 3;
pub const FILLED: u32 = 4;
pub const SLOTS: u32 = 5;
pub const MISSING: u32 = 6;
pub const FULL: u32 = 7;
pub const STUCK: u32 = 8;
pub const TICKS: u32 = 9;
pub const SPILL: u32 = 10;
pub const OPS: u32 = 11;
pub const INSIDE: u32 = 12;
pub const JOB: u32 = 13;

/// The original panicked in a way that has no code. Nothing else answers this,
/// so such a job always differs.
pub const UNKNOWN: u32 = 99;

/// The replay checker's own codes.
pub mod check {
    pub const ODD_WORDS: u32 = 30;
    pub const KIND: u32 = 31;
    pub const SWAP_DEPTH: u32 = 32;
    pub const SWAP_BELOW: u32 = 33;
    pub const DUP_DEPTH: u32 = 34;
    pub const DUP_BELOW: u32 = 35;
    pub const HEIGHT: u32 = 36;
    pub const EMPTY: u32 = 37;
    pub const WRONG_SLOT: u32 = 38;
    pub const NO_SLOT: u32 = 39;
    pub const NOT_FILLED: u32 = 40;
    pub const UNLIKE: u32 = 41;
}
