//! Makes a job that differs smaller for as long as it still differs.

use std::time::{Duration, Instant};

use oracle_job::Job;

/// One way to make a job smaller.
#[derive(Clone, Copy)]
enum Cut {
    /// So many values of one list, from a depth on.
    Start(usize, usize),
    Target(usize, usize),
    /// So many values of both stacks, from a position on.
    Both(usize, usize),
    Stored(usize),
    Swap(u8),
    Dup(u8),
    FirstSlot,
}

/// A longer search is not worth the wait.
const LONGEST: Duration = Duration::from_secs(4);

/// A smaller job that still differs: fewer values first, then smaller limits.
pub fn reduce(job: Job, differs: &dyn Fn(&Job) -> bool) -> Job {
    let (mut job, started) = (job, Instant::now());
    loop {
        let smaller = cuts(&job).into_iter().find_map(|cut| {
            let smaller = apply(&job, cut);
            (started.elapsed() < LONGEST && differs(&smaller)).then_some(smaller)
        });
        match smaller {
            Some(smaller) => job = smaller,
            None => return job,
        }
    }
}

/// All ways to make this job smaller, the great steps first.
fn cuts(job: &Job) -> Vec<Cut> {
    let (start, target) = (job.start.len(), job.target.len());
    let mut cuts = Vec::new();
    let mut size = start.max(target).next_power_of_two();
    while size > 0 {
        cuts.extend((0..start.min(target)).step_by(size).map(|from| Cut::Both(from, size)));
        cuts.extend((0..start).step_by(size).map(|from| Cut::Start(from, size)));
        cuts.extend((0..target).step_by(size).map(|from| Cut::Target(from, size)));
        size /= 2;
    }
    cuts.extend((0..job.filled.min(job.spill.len())).map(Cut::Stored));
    cuts.extend((1..job.swap).map(Cut::Swap));
    cuts.extend((0..job.dup).map(Cut::Dup));
    cuts.extend((job.first > 0).then_some(Cut::FirstSlot));
    cuts
}

fn without(list: &mut Vec<u32>, from: usize, size: usize) {
    list.drain(from..(from + size).min(list.len()));
}

fn apply(job: &Job, cut: Cut) -> Job {
    let mut job = job.clone();
    match cut {
        Cut::Start(from, size) => without(&mut job.start, from, size),
        Cut::Target(from, size) => without(&mut job.target, from, size),
        Cut::Both(from, size) => {
            for list in [&mut job.start, &mut job.target] {
                list.reverse();
                without(list, from, size);
                list.reverse();
            }
        }
        Cut::Stored(at) => {
            job.spill.remove(at);
            job.filled -= 1;
        }
        Cut::Swap(swap) => job.swap = swap,
        Cut::Dup(dup) => job.dup = dup,
        Cut::FirstSlot => job.first = 0,
    }
    job
}
