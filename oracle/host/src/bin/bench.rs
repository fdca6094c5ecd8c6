//! How long the original Rust and the port take for the same jobs, in one
//! process and by turns: each job's best of several rounds, in nanoseconds.

use std::{
    hint::black_box,
    time::{Duration, Instant},
};

use host::{port, rng::Rng};
use oracle_job::{HEIGHT, Job, codes};
use stack_scheduling::original::{self, Ready};

/// At least so many rounds, and for so long.
const ROUNDS: usize = 9;
const AT_LEAST: Duration = Duration::from_secs(2);

type Make = fn(&mut Rng) -> Job;

const CLASSES: [(&str, usize, Make); 5] = [
    ("typical", 1_000, |rng| mixed(rng, 4, 20)),
    ("medium", 400, |rng| mixed(rng, 20, 60)),
    ("tall", 60, tall),
    ("tall-deep", 30, |rng| mixed(rng, 200, 1_000)),
    ("spilled", 200, spilled),
];

fn main() {
    println!("the original Rust against {}", port::NAME);
    if std::env::var_os("ORACLE_EMULATED").is_some() {
        println!("under an emulator: the ratios do not decide");
    }
    println!("{:10} {:>12} {:>12} {:>7}", "class", "rust-ns", "port-ns", "ratio");
    let only = std::env::args().nth(1);
    for (name, count, make) in CLASSES {
        if only.as_ref().is_some_and(|only| only != name) {
            continue;
        }
        let mut rng = Rng::new(20_261_007);
        let jobs: Vec<Job> = std::iter::repeat_with(|| make(&mut rng))
            .filter(|job| original::shuffle(&mut job.clone()).code == codes::DONE)
            .take(count)
            .collect();
        let (rust, port) = measure(jobs);
        println!("{name:10} {rust:>12.0} {port:>12.0} {:>7.3}", port / rust);
    }
}

/// The nanoseconds a job on each side. A job's time is its best over all rounds,
/// so that a round in which the machine did something else does not count. Both
/// sides write into buffers that are used again for each job.
fn measure(jobs: Vec<Job>) -> (f64, f64) {
    let ready: Vec<Ready> = jobs.iter().map(Ready::new).collect();
    let mut list = Vec::new();
    let longest = |words: fn(&Job) -> usize| vec![0; jobs.iter().map(words).max().unwrap_or(0)];
    let (mut spill, mut ops) = (longest(|job| job.spill.len()), longest(|job| job.ops.len()));
    let mut best = vec![(u128::MAX, u128::MAX); jobs.len()];
    let (started, mut rounds) = (Instant::now(), 0);
    while rounds < ROUNDS || started.elapsed() < AT_LEAST {
        for (job, best) in ready.iter().zip(&mut best) {
            best.0 = best.0.min(timed(|| black_box(job).run(&mut list)));
        }
        for (job, best) in jobs.iter().zip(&mut best) {
            best.1 = best.1.min(timed(|| port::timed(black_box(job), &mut spill, &mut ops)));
        }
        rounds += 1;
    }
    let count = best.len() as f64;
    let mean = |side: fn(&(u128, u128)) -> u128| best.iter().map(side).sum::<u128>() as f64 / count;
    (mean(|best| best.0), mean(|best| best.1))
}

/// The nanoseconds that one call takes.
fn timed(run: impl FnOnce() -> usize) -> u128 {
    let started = Instant::now();
    black_box(run());
    started.elapsed().as_nanos()
}

/// A job with the limits of today's EVM and room for everything.
fn job(start: Vec<u32>, spilled: Vec<u32>, target: Vec<u32>) -> Job {
    let filled = spilled.len();
    let mut spill = spilled;
    spill.resize(filled + 4_000, 0);
    Job { start, spill, filled, first: 0, target, swap: 16, dup: 15, ops: vec![0; 24_000] }
}

fn mix(rng: &mut Rng, list: &mut [u32]) {
    for at in (1..list.len()).rev() {
        list.swap(at, rng.below(at + 1));
    }
}

/// A target of mostly different values; the start has most of them, mixed, and
/// a few that are not wanted.
fn mixed(rng: &mut Rng, low: usize, high: usize) -> Job {
    let height = rng.from_to(low, high);
    let target: Vec<u32> = (0..height).map(|_| rng.from_to(1, 2 * height) as u32).collect();
    let mut start: Vec<u32> = target.iter().copied().filter(|_| rng.chance(90)).collect();
    start.extend((0..rng.below(1 + height / 4)).map(|i| 5_000 + i as u32));
    start.truncate(high);
    mix(rng, &mut start);
    let spilled = target.iter().copied().filter(|value| !start.contains(value)).collect();
    job(start, spilled, target)
}

/// Tall stacks that are alike but for the top.
fn tall(rng: &mut Rng) -> Job {
    let over = rng.from_to(4, 14);
    let shared = rng.from_to(200, HEIGHT - 30);
    let below: Vec<u32> = (0..shared).map(|_| rng.from_to(1, 2_000) as u32).collect();
    let mut top: Vec<u32> = (0..over as u32).map(|i| 10_000 + i).collect();
    let target = [&top[..], &below].concat();
    mix(rng, &mut top);
    job([&top[..], &below].concat(), Vec::new(), target)
}

/// Many loads out of a long list of stored values.
fn spilled(rng: &mut Rng) -> Job {
    let mut stored: Vec<u32> = (1..=500).collect();
    mix(rng, &mut stored);
    let height = rng.from_to(20, 60);
    let target: Vec<u32> = (0..height).map(|_| rng.from_to(1, 500) as u32).collect();
    let start = target[height - height / 4..].to_vec();
    job(start, stored, target)
}
