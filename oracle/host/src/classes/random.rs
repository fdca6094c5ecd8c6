//! Random jobs: most of them with a start that is made out of the target, so
//! that the shuffle has something to find.

use oracle_job::{HEIGHT, Job};

use super::{Take, bare, lend};
use crate::rng::Rng;

/// What a random job is made of.
pub struct Shape {
    pub highest: usize,
    pub values: usize,
    pub stored: usize,
    pub swap: (usize, usize),
    pub dup: (usize, usize),
}

fn list(rng: &mut Rng, count: usize, values: usize) -> Vec<u32> {
    (0..count).map(|_| rng.from_to(1, values) as u32).collect()
}

fn mix(rng: &mut Rng, list: &mut [u32]) {
    for at in (1..list.len()).rev() {
        list.swap(at, rng.below(at + 1));
    }
}

/// A start that holds much of the target, in another order and with strangers.
fn start_for(rng: &mut Rng, target: &[u32], shape: &Shape) -> Vec<u32> {
    let keep = rng.from_to(30, 100);
    let mut start: Vec<u32> = target.iter().copied().filter(|_| rng.chance(keep)).collect();
    let strangers = rng.below(3 + shape.highest / 8);
    start.extend(list(rng, strangers, shape.values + 2));
    let mixed = rng.below(start.len() + 1);
    mix(rng, &mut start[..mixed]);
    start.truncate(shape.highest);
    start
}

pub fn job(rng: &mut Rng, shape: &Shape) -> Job {
    let height = rng.from_to(0, shape.highest);
    let target = list(rng, height, shape.values);
    let start = match rng.chance(70) {
        true => start_for(rng, &target, shape),
        false => {
            let height = rng.from_to(0, shape.highest);
            list(rng, height, shape.values)
        }
    };
    let stored = rng.from_to(0, shape.stored);
    let mut spilled = list(rng, stored, shape.values);
    if rng.chance(50) {
        spilled.extend(target.iter().filter(|value| !start.contains(value)));
    }
    let swap = rng.from_to(shape.swap.0, shape.swap.1) as u8;
    let dup = match rng.chance(50) {
        true => swap - 1,
        false => rng.from_to(shape.dup.0, shape.dup.1) as u8,
    };
    let mut job = bare(start, spilled, target, swap, dup);
    job.first = rng.pick(&[0, 0, 5, 1_000]);
    job
}

fn lent(rng: &mut Rng, mut job: Job, free: usize, room: usize) -> Job {
    let slots = job.filled + rng.below(free + 1);
    let words = 2 * room - rng.below(2);
    lend(rng, &mut job, slots, words);
    job
}

const SMALL: Shape = Shape { highest: 9, values: 6, stored: 4, swap: (1, 6), dup: (0, 6) };

pub fn small(rng: &mut Rng, count: u64, take: Take) {
    for _ in 0..count {
        let shape = Shape { values: rng.from_to(1, 8), ..SMALL };
        let job = job(rng, &shape);
        take(lent(rng, job, 24, 64));
    }
}

pub fn medium_job(rng: &mut Rng) -> Job {
    let (highest, values) = (rng.from_to(4, 40), rng.from_to(2, 48));
    let swap = if rng.chance(40) { (16, 16) } else { (1, 24) };
    job(rng, &Shape { highest, values, stored: 6, swap, dup: (0, 24) })
}

pub fn medium(rng: &mut Rng, count: u64, take: Take) {
    for _ in 0..count {
        let job = medium_job(rng);
        take(lent(rng, job, 80, 300));
    }
}

pub fn low_swap_tall(rng: &mut Rng, count: u64, take: Take) {
    for _ in 0..count {
        let highest = rng.pick(&[60, 120, 250, 500, 1_000, HEIGHT]);
        let values = rng.pick(&[3, 20, 200, 2_000]);
        let job = job(rng, &Shape { highest, values, stored: 20, swap: (1, 3), dup: (0, 4) });
        take(lent(rng, job, 2_000, 6_000));
    }
}

/// Stacks within a few values of the greatest height. Far down both are alike;
/// the top of the start is the target's with some values replaced, and what is
/// missing is often stored.
pub fn near_full(rng: &mut Rng, count: u64, take: Take) {
    for _ in 0..count {
        let values = rng.pick(&[2, 40, 3_000]);
        let over = rng.from_to(2, 24);
        let below = HEIGHT - over - rng.pick(&[0, 0, 0, 1, 2]);
        let shared = list(rng, below, values);
        let mut top = list(rng, over, 30);
        let lower = if rng.chance(60) { 0 } else { rng.below(over) };
        let target = [&top[lower..], &shared].concat();
        mix(rng, &mut top);
        for _ in 0..rng.below(4) {
            top[rng.below(over)] = rng.pick(&[40, 41, top[0], shared[0]]);
        }
        let start = [&top[..], &shared].concat();
        let mut spilled = list(rng, over, 40);
        if rng.chance(70) {
            spilled.extend(&target[..over]);
        }
        let swap = rng.pick(&[1, 2, 3, 8, 16, 16, 24, 40, 255]);
        let job = bare(start, spilled, target, swap, rng.pick(&[0, 1, 7, 15, 15, 40, 255]));
        let room = if rng.chance(20) { rng.from_to(1, 4) } else { 600 };
        take(lent(rng, job, 100, room));
    }
}

pub fn to_255(rng: &mut Rng, count: u64, take: Take) {
    for _ in 0..count {
        let highest = rng.pick(&[20, 100, 270, 400, 600]);
        let values = rng.pick(&[5, 100, 700]);
        let swap = rng.pick(&[(1, 255), (250, 255), (30, 60)]);
        let job = job(rng, &Shape { highest, values, stored: 30, swap, dup: (0, 255) });
        take(lent(rng, job, 500, 3_000));
    }
}

/// Values and slot numbers that go up to the largest that a word can hold.
pub fn top_of_range(rng: &mut Rng, count: u64, take: Take) {
    for _ in 0..count {
        let shape = Shape { values: rng.from_to(1, 8), ..SMALL };
        let mut job = job(rng, &shape);
        let lists = [&mut job.start, &mut job.spill, &mut job.target];
        for value in lists.into_iter().flatten() {
            *value = match *value % 3 {
                0 => *value - 1,
                1 => 0x7fff_fffe + *value,
                _ => u32::MAX - (*value - 2),
            };
        }
        let mut job = lent(rng, job, 24, 64);
        let highest = u32::MAX - job.spill.len() as u32;
        job.first = highest - rng.pick(&[0, 0, 1, 2, 100, 0x8000_0000]);
        take(job);
    }
}
