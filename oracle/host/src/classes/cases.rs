//! The worked cases A to N, each with all the room it can use.

use oracle_job::Job;
use stack_scheduling::original;

use super::{Take, bare, lend};
use crate::{rng::Rng, text};

pub const COUNT: u64 = 17;

/// The longest endless loop writes two operations in each tick of both loops
/// and stores one value in each tick.
pub const ALL_SLOTS: usize = 60_000;
pub const ALL_WORDS: usize = 400_000;

/// The cases A to M with the answers that document 01 gives them, in its order.
/// M's list of a hundred thousand operations is told by its beginning.
const WORKED: [(&str, &str); 13] = [
    ("16/15 start - spilled - target -", "code 0 shrink 0 grow 0 ops - "),
    ("16/15 start 7 spilled - target -", "code 0 shrink 0 grow 0 ops Pop "),
    ("16/15 start - spilled - target 7", "code 6 shrink 0 grow 1 ops "),
    ("16/15 start - spilled 7 7 target 7 first 40", "code 0 shrink 0 grow 1 ops load(41) "),
    ("16/15 start 1 spilled - target 1 1", "code 0 shrink 0 grow 1 ops Dup(0) "),
    (
        "16/15 start 3 1 2 spilled - target 3 2 1",
        "code 0 shrink 0 grow 2 ops Swap(1) Swap(2) Swap(1) ",
    ),
    (
        "16/15 start 7 9 spilled 8 target 7 8 first 5",
        "code 0 shrink 0 grow 2 ops load(5) Swap(2) Pop ",
    ),
    ("3/2 start 3 2 9 spilled - target 3 2 2", "code 0 shrink 0 grow 2 ops Dup(1) Swap(3) Pop "),
    ("3/1 start 3 2 9 spilled - target 3 2 2", "code 8 shrink 0 grow 1 ops "),
    ("3/0 start 3 2 9 spilled - target 3 2 2", "code 6 shrink 0 grow 1 ops "),
    (
        "1/0 start 1 2 3 spilled - target 3 2 1",
        "code 0 shrink 1 grow 5 ops store(0) store(1) load(0) Swap(1) load(1) Swap(1) ",
    ),
    (
        "2/1 start 2 9 1 5 spilled 6 target 2 6 1 6",
        "code 0 shrink 1 grow 6 ops Swap(1) Pop store(1) load(0) Swap(2) Pop Dup(1) load(1) ",
    ),
    (
        "4/1 start 4 3 2 9 spilled 2 target 4 3 2 3",
        "code 9 shrink 0 grow 100000 ops load(0) Pop load(0) Pop load(0) Pop load(0) Pop ",
    ),
];

/// The worked cases that the original does not answer as document 01 does.
pub fn unlike_worked() -> Vec<String> {
    let mut unlike = Vec::new();
    for (line, answer) in WORKED {
        let mut job = whole(&mut Rng::new(0), line);
        let found = original::shuffle(&mut job);
        let found = text::answer(&job, &found);
        if !found.starts_with(answer) {
            unlike.push(format!("{line}: {found:.200}"));
        }
    }
    unlike
}

/// The job of this line with all the room it can use.
fn whole(rng: &mut Rng, line: &str) -> Job {
    let mut job = text::parse(line).expect("the cases are jobs");
    job.spill.truncate(job.filled);
    lend(rng, &mut job, ALL_SLOTS, ALL_WORDS);
    job
}

pub fn all(rng: &mut Rng, _count: u64, take: Take) {
    for (line, _) in WORKED {
        take(whole(rng, line));
    }
    for under in [1_022, 1_021] {
        for room in [200, 0] {
            take(case_n(rng, under, room));
        }
    }
}

/// Case G over further distinct values, the same in both stacks.
fn case_n(rng: &mut Rng, under: u32, room: usize) -> Job {
    let over = |two: [u32; 2]| two.into_iter().chain(10..10 + under).collect();
    let mut job = bare(over([7, 9]), vec![8], over([7, 8]), 16, 15);
    lend(rng, &mut job, 4, 2 * room);
    job
}
