//! Added for the comparison: how many ticks passed at each place that ticks.
//! Without the feature `count-ticks` nothing is counted and nothing costs time.

#[cfg(feature = "count-ticks")]
mod counting {
    use std::cell::RefCell;

    thread_local! {
        static PASSED: RefCell<Vec<(u32, u32)>> = const { RefCell::new(Vec::new()) };
    }

    /// Counts one tick for the source line that asked for it.
    pub fn passed(line: u32) {
        PASSED.with_borrow_mut(|counts| match counts.iter_mut().find(|(at, _)| *at == line) {
            Some((_, count)) => *count += 1,
            None => counts.push((line, 1)),
        });
    }

    /// The ticks counted for this line; the line then starts again from 0.
    pub fn take(line: u32) -> u32 {
        PASSED.with_borrow_mut(|counts| match counts.iter_mut().find(|(at, _)| *at == line) {
            Some((_, count)) => std::mem::take(count),
            None => 0,
        })
    }
}

#[cfg(not(feature = "count-ticks"))]
mod counting {
    #[inline(always)]
    pub fn passed(_line: u32) {}

    pub fn take(_line: u32) -> u32 {
        0
    }
}

pub use counting::{passed, take};
