//! Codes 1 to 5: each limit just kept and just passed, in every combination.

use super::{Take, bare, lend};
use crate::{driver::SLOTS, rng::Rng};

pub fn all(rng: &mut Rng, count: u64, take: Take) {
    for turn in 0..count {
        let passed = |limit: u32| turn >> limit & 1 == 1;
        let swap = if passed(0) { 0 } else { rng.pick(&[1, 2, 16, 255]) };
        let start = values(rng, passed(1));
        let target = values(rng, passed(2));
        let slots = rng.from_to(usize::from(passed(4)), 6);
        let spilled = (0..rng.pick(&[0, slots])).map(|i| 1 + i as u32 % 4).collect();
        let mut job = bare(start, spilled, target, swap, rng.pick(&[0, 15, 255]));
        let words = rng.from_to(0, 40);
        lend(rng, &mut job, slots, words);
        if passed(3) {
            job.filled = rng.pick(&[slots + 1, slots + 2, usize::MAX]);
        }
        let highest = u32::MAX - slots as u32;
        job.first = match passed(4) {
            true => highest + rng.from_to(1, slots) as u32,
            false => rng.pick(&[0, highest]),
        };
        take(job);
    }
}

/// The same for the driver, whose buffers are always of one size: the slots
/// just filled and one more than that, and the last first slot that they allow.
pub fn driver(rng: &mut Rng, count: u64, take: Take) {
    for turn in 0..count {
        let passed = |limit: u32| turn >> limit & 1 == 1;
        let swap = if passed(0) { 0 } else { rng.pick(&[1, 2, 16, 255]) };
        let (start, target) = (values(rng, passed(1)), values(rng, passed(2)));
        let stored = if passed(3) { SLOTS + 1 } else { rng.pick(&[0, 3, SLOTS - 1, SLOTS]) };
        let spilled = (0..stored).map(|i| 1 + i as u32 % 5).collect();
        let mut job = bare(start, spilled, target, swap, rng.pick(&[0, 15, 255]));
        let highest = u32::MAX - SLOTS as u32;
        job.first = if passed(4) { highest + 1 } else { rng.pick(&[0, highest]) };
        take(job);
    }
}

/// A stack that is too high or at most as high as it may be, of one value or
/// of rising ones.
fn values(rng: &mut Rng, too_high: bool) -> Vec<u32> {
    let height = match too_high {
        true => rng.pick(&[1_025, 1_025, 1_026, 2_000]),
        false => rng.pick(&[0, 1, 3, 1_024]),
    };
    let (lowest, step) = (rng.pick(&[1, 2]), rng.pick(&[0, 1]));
    (0..height).map(|i| lowest + step * i).collect()
}
