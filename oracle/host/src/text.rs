//! Jobs and answers as single lines of text.
//!
//! A job reads `S/D start 3 1 2 spilled - target 3 2 1 first 0 slots 4 room 9`:
//! `-` is an empty list, `7*1000` a thousand sevens, `10..99` all from 10 to 99,
//! `slots` the length of the spill buffer (filled ones included), `room` the
//! operations that fit (`words` gives the operation words instead), `filled` the
//! count of filled slots if it is not that of `spilled`.
//! What is left out is empty, 0, or as much as the driver lends.

use oracle_job::{Answer, Job, Op};

use crate::driver;

/// The names of a line, each with the numbers that follow it.
fn fields(line: &str) -> Result<Vec<(&str, Vec<u32>)>, String> {
    let mut fields: Vec<(&str, Vec<u32>)> = Vec::new();
    for token in line.split_whitespace() {
        if let Some(numbers) = numbers(token) {
            fields.last_mut().ok_or("a number without a name")?.1.extend(numbers);
        } else if token != "-" {
            fields.push((token, Vec::new()));
        }
    }
    Ok(fields)
}

/// The job in this line, or what is wrong with the line.
pub fn parse(line: &str) -> Result<Job, String> {
    let (limits, rest) = line.trim().split_once(' ').unwrap_or((line.trim(), ""));
    let (swap, dup) = limits.split_once('/').ok_or("the limits S/D come first")?;
    let mut job = Job {
        start: Vec::new(),
        spill: Vec::new(),
        filled: 0,
        first: 0,
        target: Vec::new(),
        swap: swap.parse().map_err(|_| "S is not 0 to 255")?,
        dup: dup.parse().map_err(|_| "D is not 0 to 255")?,
        ops: vec![0; 2 * driver::ROOM],
    };
    let (mut slots, mut filled) = (driver::SLOTS, None);
    for (name, numbers) in fields(rest)? {
        let one = || numbers.first().copied().ok_or(format!("{name} needs a number"));
        match name {
            "start" => job.start = numbers,
            "spilled" => job.spill = numbers,
            "target" => job.target = numbers,
            "first" => job.first = one()?,
            "slots" => slots = one()? as usize,
            "filled" => filled = Some(one()? as usize),
            "room" => job.ops = vec![0; 2 * one()? as usize],
            "words" => job.ops = vec![0; one()? as usize],
            _ => return Err(format!("no field is called {name}")),
        }
    }
    job.filled = filled.unwrap_or(job.spill.len());
    job.spill.resize(slots, 0);
    Ok(job)
}

/// A number, `7*1000` for a thousand sevens, or `10..99` for all from 10 to 99.
fn numbers(token: &str) -> Option<Vec<u32>> {
    if let Some((number, times)) = token.split_once('*') {
        return Some(vec![number.parse().ok()?; times.parse().ok()?]);
    }
    if let Some((low, high)) = token.split_once("..") {
        return Some((low.parse().ok()?..=high.parse().ok()?).collect());
    }
    Some(vec![token.parse().ok()?])
}

/// Runs shorter than this are written out.
const RUN: usize = 9;

fn list(words: &[u32]) -> String {
    if words.is_empty() {
        return "-".to_owned();
    }
    let (mut parts, mut rest) = (Vec::new(), words);
    while let Some(&word) = rest.first() {
        let same = rest.iter().take_while(|&&other| other == word).count();
        let rising = (word..=u32::MAX).zip(rest).take_while(|(one, other)| one == *other).count();
        let (part, length) = match (same, rising) {
            (RUN.., _) => (format!("{word}*{same}"), same),
            (_, RUN..) => (format!("{word}..{}", rest[rising - 1]), rising),
            _ => (word.to_string(), 1),
        };
        parts.push(part);
        rest = &rest[length..];
    }
    parts.join(" ")
}

/// The line for a job.
pub fn job(job: &Job) -> String {
    let spilled = &job.spill[..job.filled.min(job.spill.len())];
    let mut room = match job.ops.len() {
        even if even % 2 == 0 => format!("room {}", even / 2),
        odd => format!("words {odd}"),
    };
    if job.filled > job.spill.len() {
        room += &format!(" filled {}", job.filled);
    }
    format!(
        "{}/{} start {} spilled {} target {} first {} slots {} {room}",
        job.swap,
        job.dup,
        list(&job.start),
        list(spilled),
        list(&job.target),
        job.first,
        job.spill.len(),
    )
}

/// The line for an answer, with the operations, spill list and end stack. Counts
/// and words that make no sense are shown as they are.
pub fn answer(job: &Job, answer: &Answer) -> String {
    let ops: Vec<_> = job.ops.chunks_exact(2).take(answer.ops).map(op).collect();
    format!(
        "code {} shrink {} grow {} ops {} spill {} stack {}",
        answer.code,
        answer.shrink_ticks,
        answer.grow_ticks,
        if ops.is_empty() { "-".to_owned() } else { ops.join(" ") },
        list(&job.spill[..answer.slots.min(job.spill.len())]),
        list(&answer.stack),
    )
}

fn op(pair: &[u32]) -> String {
    match Op::from_words(pair[0], pair[1]) {
        Some(op) => op.to_string(),
        None => format!("?({}, {})", pair[0], pair[1]),
    }
}
