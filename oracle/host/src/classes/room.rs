//! Too little room, so that each operation in turn is the one that is refused;
//! and so much of it that only the ticks end an endless loop.

use oracle_job::{Job, codes};
use stack_scheduling::original;

use super::{
    Take,
    cases::{ALL_SLOTS, ALL_WORDS},
    lend,
    random::{self, Shape},
};
use crate::rng::Rng;

/// The most operations of one run that are refused in turn.
const TURNS: usize = 40;

fn base(rng: &mut Rng) -> Job {
    let shape =
        Shape { highest: 9, values: rng.from_to(2, 8), stored: 3, swap: (1, 4), dup: (0, 4) };
    if rng.chance(85) { random::job(rng, &shape) } else { random::medium_job(rng) }
}

/// For one job after another: the operation words for 0, 1, 2, ... operations,
/// even and odd; then the slots for 0, 1, 2, ... stores; then both at once.
pub fn little(rng: &mut Rng, count: u64, take: Take) {
    let mut left = count;
    while left > 0 {
        let job = base(rng);
        let mut whole = job.clone();
        lend(rng, &mut whole, job.filled + TURNS, 2 * TURNS);
        let answer = original::shuffle(&mut whole);
        let stores = answer.slots - job.filled;
        let mut rooms = Vec::new();
        for room in 0..=answer.ops {
            rooms.push((stores, 2 * room + rng.below(2)));
        }
        for free in 0..stores {
            rooms.push((free, 2 * answer.ops + rng.below(2)));
            rooms.push((free, rng.below(2 * answer.ops + 1)));
        }
        for (free, words) in rooms.into_iter().take(left as usize) {
            let mut job = job.clone();
            let slots = job.filled + free;
            lend(rng, &mut job, slots, words);
            take(job);
            left -= 1;
        }
    }
}

/// Jobs that go on for ever, found among small ones, with room for all of it.
pub fn endless(rng: &mut Rng, count: u64, take: Take) {
    let mut left = count;
    while left > 0 {
        let job = base(rng);
        let mut probe = job.clone();
        lend(rng, &mut probe, job.filled + 300, 1_200);
        if !matches!(original::shuffle(&mut probe).code, codes::SPILL | codes::OPS) {
            continue;
        }
        let mut job = job;
        lend(rng, &mut job, ALL_SLOTS, ALL_WORDS);
        take(job);
        left -= 1;
    }
}
