//! A fixed sample of jobs with the driver's buffers and the original's answers:
//! so many of each class and code that came, and few of the long ones.

use std::collections::{BTreeMap, BTreeSet};

use oracle_job::{Answer, Job};
use stack_scheduling::original;

use crate::{
    classes::{CLASSES, DRIVER},
    driver,
    rng::Rng,
};

/// A job with so many values, or an answer with so many operations, is long; with
/// so many operations, very long.
const LONG: usize = 60;
const VERY_LONG: usize = 1_000;

/// How many long and very long ones of each class and code are taken.
const LONG_ONES: usize = 3;
const VERY_LONG_ONES: usize = 1;

/// Enough of each class to meet its rarer codes.
const LOOKED_AT: u64 = 20_000;

/// A job file, the job in it, the same after the original has run, and its answer.
pub struct Sampled {
    pub bytes: Vec<u8>,
    pub asked: Job,
    pub after: Job,
    pub answer: Answer,
}

/// The sample, class by class, with at most `each` short jobs of each code.
pub fn sample(each: usize, take: &mut dyn FnMut(&str, Vec<Sampled>)) {
    let mut seen = BTreeSet::new();
    for (number, class) in CLASSES.iter().chain([&DRIVER]).enumerate() {
        let mut taken: BTreeMap<(u32, usize), usize> = BTreeMap::new();
        let mut sampled = Vec::new();
        let count = class.quick.min(LOOKED_AT);
        (class.make)(&mut Rng::new(number as u64), count, &mut |job| {
            let bytes = driver::bytes(&job);
            let Some(asked) = driver::parse(&bytes) else { return };
            if !seen.insert(bytes.clone()) {
                return;
            }
            let mut after = asked.clone();
            let answer = original::shuffle(&mut after);
            let values = asked.start.len() + asked.filled + asked.target.len();
            let most = match (values, answer.ops) {
                (_, VERY_LONG..) => VERY_LONG_ONES,
                (LONG.., _) | (_, LONG..) => LONG_ONES,
                _ => each,
            };
            let taken = taken.entry((answer.code, most)).or_default();
            if *taken < most {
                *taken += 1;
                sampled.push(Sampled { bytes, asked, after, answer });
            }
        });
        take(class.name, sampled);
    }
}
