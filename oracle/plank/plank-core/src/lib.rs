//! A cut of Plank's `plank-core`: `span` is the original file, `LoopLimit` is
//! the original text with one line added to `tick`, and `index` stands in for
//! a module that is not supplied.

pub mod index;
#[rustfmt::skip]
pub mod span;
pub mod ticks;

pub use crate::{
    index::Idx,
    span::{IncIterable, Span},
};

#[derive(Debug)]
pub struct LoopLimit {
    count: u32,
    max: u32,
}

impl LoopLimit {
    /// Initialize a loop limiter with a max of 100M
    pub const fn new() -> Self {
        Self { count: 0, max: 100_000_000 }
    }

    pub const fn max(max: u32) -> Self {
        Self { count: 0, max }
    }

    #[track_caller]
    pub fn tick(&mut self) {
        self.count += 1;
        assert!(self.count <= self.max, "loop limit hit ({})", self.max);
        ticks::passed(std::panic::Location::caller().line()); // The added line.
    }
}

impl Default for LoopLimit {
    fn default() -> Self {
        Self::new()
    }
}
