//! Both sides on one job, and everything that must be the same.

use std::collections::BTreeMap;

use oracle_job::{Answer, Job, Verdict, codes, lines};
use stack_scheduling::original;

use crate::port;

/// How many of each code came.
#[derive(Debug, Clone, Default)]
pub struct Tally(BTreeMap<u32, u64>);

impl Tally {
    pub fn add(&mut self, code: u32) {
        *self.0.entry(code).or_default() += 1;
    }

    pub fn total(&self) -> u64 {
        self.0.values().sum()
    }

    pub fn merge(&mut self, other: &Self) {
        for (code, count) in &other.0 {
            *self.0.entry(*code).or_default() += count;
        }
    }

    /// Those of these codes that never came.
    pub fn missing(&self, codes: impl Iterator<Item = u32>) -> String {
        let missing = codes.filter(|code| !self.0.contains_key(code));
        let missing: Vec<_> = missing.map(|code| code.to_string()).collect();
        if missing.is_empty() { "none".to_owned() } else { missing.join(" ") }
    }
}

impl std::fmt::Display for Tally {
    fn fmt(&self, f: &mut std::fmt::Formatter<'_>) -> std::fmt::Result {
        let parts: Vec<_> = self.0.iter().map(|(code, count)| format!("{code}:{count}")).collect();
        write!(f, "{}", parts.join(" "))
    }
}

/// One side's answer with the buffers as that side left them.
#[derive(Debug, Clone, PartialEq, Eq)]
pub struct Answered {
    pub answer: Answer,
    pub after: Job,
}

pub fn ask(job: &Job, side: fn(&mut Job) -> Answer) -> Answered {
    let mut after = job.clone();
    let answer = side(&mut after);
    Answered { answer, after }
}

/// What both sides made of a job, and what is not the same.
pub fn shuffles(job: &Job) -> (Answered, Option<String>) {
    let rust = ask(job, original::shuffle);
    let port = ask(job, port::shuffle);
    let difference = first_difference(&rust, &port);
    (rust, difference)
}

fn first_difference(rust: &Answered, port: &Answered) -> Option<String> {
    let (one, other) = (&rust.answer, &port.answer);
    let numbers = [
        ("code", one.code as usize, other.code as usize),
        ("shrink ticks", one.shrink_ticks as usize, other.shrink_ticks as usize),
        ("grow ticks", one.grow_ticks as usize, other.grow_ticks as usize),
        ("operations", one.ops, other.ops),
        ("slots", one.slots, other.slots),
    ];
    for (name, one, other) in numbers {
        if one != other {
            return Some(format!("{name}: {one} by the Rust, {other} by the port"));
        }
    }
    let lists = [
        ("operation word", &rust.after.ops, &port.after.ops),
        ("spill word", &rust.after.spill, &port.after.spill),
        ("end stack, depth", &one.stack, &other.stack),
        ("start, depth", &rust.after.start, &port.after.start),
        ("target, depth", &rust.after.target, &port.after.target),
    ];
    for (name, one, other) in lists {
        if one != other {
            let at = (0..).find(|&i| one.get(i) != other.get(i)).unwrap_or_default();
            let (one, other) = (one.get(at), other.get(at));
            return Some(format!("{name} {at}: {one:?} by the Rust, {other:?} by the port"));
        }
    }
    (rust != port).then(|| "a field that is not named".to_owned())
}

/// The checker's job for what a shuffle wrote: the same job, with exactly the
/// words that were written and the spill buffer as it was lent.
pub fn list_of(job: &Job, rust: &Answered) -> Job {
    let ops = rust.after.ops[..2 * rust.answer.ops].to_vec();
    Job { ops, ..job.clone() }
}

/// What the checker must say of the list that a shuffle wrote, told from the
/// shuffle's answer alone.
pub fn expected(list: &Job, rust: &Answered) -> Verdict {
    let answer = &rust.answer;
    if (codes::LIMIT..=codes::SLOTS).contains(&answer.code) {
        return Verdict { code: answer.code, ..Verdict::default() };
    }
    let reached = answer.stack == list.target;
    let code = if reached { codes::DONE } else { codes::check::UNLIKE };
    let gas = lines(&list.ops).map(|op| op.gas()).sum();
    Verdict { code, index: answer.ops, gas, filled: answer.slots }
}

/// The verdicts of the second checker and of the port's, and what is not the same.
pub fn verdicts(list: &Job) -> (Verdict, Vec<u32>, Option<String>) {
    let (mut one, mut other) = (list.clone(), list.clone());
    let second = second::check(&mut one);
    let port = port::check(&mut other);
    let difference = if second != port {
        Some(format!("verdict: {second:?} by the second checker, {port:?} by the port"))
    } else if one != other {
        Some("the buffers after the check".to_owned())
    } else {
        None
    };
    (second, one.spill, difference)
}
