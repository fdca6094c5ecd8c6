//! The classes of jobs that are compared.

mod cases;
mod damage;
mod limits;
mod random;
mod room;
mod small;

use oracle_job::Job;

use crate::rng::Rng;

pub use cases::unlike_worked;
pub use damage::damaged;

/// Takes one job after another.
pub type Take<'a> = &'a mut dyn FnMut(Job);

/// A class makes a given number of jobs; those that list all jobs of some kind
/// ignore the number.
pub struct Class {
    pub name: &'static str,
    pub quick: u64,
    pub full: u64,
    pub make: fn(&mut Rng, u64, Take),
}

const fn class(name: &'static str, quick: u64, full: u64, make: fn(&mut Rng, u64, Take)) -> Class {
    Class { name, quick, full, make }
}

pub const CLASSES: &[Class] = &[
    class("cases", cases::COUNT, cases::COUNT, cases::all),
    class("limits", 1_600, 32_000, limits::all),
    class("all-small", small::COUNT, small::COUNT, small::all),
    class("random-small", 80_000, 3_000_000, random::small),
    class("medium", 30_000, 1_000_000, random::medium),
    class("low-swap-tall", 400, 20_000, random::low_swap_tall),
    class("near-1024", 1_000, 40_000, random::near_full),
    class("to-255", 300, 15_000, random::to_255),
    class("little-room", 80_000, 2_000_000, room::little),
    class("top-of-range", 20_000, 500_000, random::top_of_range),
    class("endless", 2, 40, room::endless),
];

/// The driver's own limits, for the recorded sample: its buffers are not the
/// job's to choose, so the other classes do not meet them.
pub const DRIVER: Class = class("driver-limits", 800, 800, limits::driver);

/// Lends words that hold a pattern, so that a write past the counts shows: the
/// spill words beyond the filled ones are half the time values of the job, which
/// a search that goes too far would find.
fn lend(rng: &mut Rng, job: &mut Job, slots: usize, words: usize) {
    let likely = [job.start.as_slice(), &job.target].concat();
    let values = !likely.is_empty() && rng.chance(50);
    while job.spill.len() < slots {
        let mark = 0xa500_0000 | job.spill.len() as u32;
        job.spill.push(if values { rng.pick(&likely) } else { mark });
    }
    job.ops = (0..words as u32).map(|i| 0x5a00_0000 | i).collect();
}

/// A job whose buffers are still to be lent.
fn bare(start: Vec<u32>, spilled: Vec<u32>, target: Vec<u32>, swap: u8, dup: u8) -> Job {
    let filled = spilled.len();
    Job { start, spill: spilled, filled, first: 0, target, swap, dup, ops: Vec::new() }
}
