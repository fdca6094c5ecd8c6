//! Copies of a checker's job in which one thing is no longer right.

use oracle_job::{HEIGHT, Job};

use crate::rng::Rng;

/// Words that stand for nothing, or for something only when cut to 8 bits.
const ODD_WORDS: [u32; 8] = [0, 6, 256, 257, 258, 259, 0x8000_0003, u32::MAX];

/// A copy of the job with one to three damages.
pub fn damaged(rng: &mut Rng, job: &Job) -> Job {
    let mut job = job.clone();
    for _ in 0..rng.from_to(1, 3) {
        match rng.below(16) {
            0..9 => damage_list(rng, &mut job),
            9..12 => damage_limits(rng, &mut job),
            _ => damage_stacks(rng, &mut job),
        }
    }
    job
}

/// A well-formed operation that need not fit the place.
fn any_op(rng: &mut Rng, job: &Job) -> [u32; 2] {
    let next = job.first.saturating_add(job.filled.min(job.spill.len()) as u32);
    let depth = |limit: u8, rng: &mut Rng| rng.from_to(0, usize::from(limit) + 2) as u32;
    match rng.below(5) {
        0 => [1, depth(job.swap, rng)],
        1 => [2, depth(job.dup, rng)],
        2 => [3, 0],
        3 => [4, next],
        _ => [5, next.wrapping_sub(rng.below(3) as u32)],
    }
}

fn damage_list(rng: &mut Rng, job: &mut Job) {
    let count = job.ops.len() / 2;
    let at = 2 * rng.below(count + 1);
    let op = any_op(rng, job);
    match rng.below(9) {
        0 => drop(job.ops.splice(at..at, op)),
        1 => job.ops.push(op[0]),
        _ if count == 0 => job.ops.extend(op),
        2 => drop(job.ops.drain(at.min(2 * count - 2)..(at + 2).min(job.ops.len()))),
        3 => job.ops.truncate(at),
        4 => job.ops.truncate(2 * count - 1),
        5 => {
            let word = rng.below(job.ops.len());
            job.ops[word] = rng.pick(&ODD_WORDS);
        }
        6 => {
            let word = rng.below(job.ops.len());
            job.ops[word] = job.ops[word].wrapping_add(rng.pick(&[1, u32::MAX, 256]));
        }
        7 => {
            let (one, other) = (rng.below(job.ops.len()), rng.below(job.ops.len()));
            job.ops.swap(one, other);
        }
        _ => {
            let at = at.min(2 * count - 2);
            job.ops[at..at + 2].copy_from_slice(&op);
        }
    }
}

fn damage_limits(rng: &mut Rng, job: &mut Job) {
    match rng.below(6) {
        0 => job.swap = job.swap.saturating_sub(1),
        1 => job.dup = job.dup.saturating_sub(1),
        2 => job.first = job.first.wrapping_add(rng.pick(&[1, u32::MAX])),
        3 => job.filled = job.filled.saturating_sub(1),
        4 => job.filled = job.filled.saturating_add(1),
        _ => drop(job.spill.pop()),
    }
}

fn damage_stacks(rng: &mut Rng, job: &mut Job) {
    let list = if rng.chance(50) { &mut job.start } else { &mut job.target };
    match rng.below(4) {
        0 if !list.is_empty() => drop(list.remove(rng.below(list.len()))),
        1 if !list.is_empty() => {
            let at = rng.below(list.len());
            list[at] = list[at].wrapping_add(1);
        }
        2 => {
            let more = HEIGHT.saturating_sub(list.len() + rng.below(3));
            list.extend((0..more as u32).map(|i| 100 + i));
        }
        _ => list.insert(rng.below(list.len() + 1), 77),
    }
}
