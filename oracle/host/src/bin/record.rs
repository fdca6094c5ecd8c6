//! Writes the fixed sample as the files that `crates/recorded` replays, one for
//! each class, and prints what the replay is to print. `crates/recorded/README.md`
//! says what the bytes mean.

use std::{collections::BTreeMap, fs, path::Path};

use host::{
    driver,
    sample::{Sampled, sample},
};
use oracle_job::lines;

/// At most so many jobs of each class and code.
const EACH: usize = 200;

/// A number: one byte below 253; else 253 and two bytes, or 254 and four.
fn number(out: &mut Vec<u8>, value: u32) {
    match value {
        0..253 => out.push(value as u8),
        253..=0xffff => {
            out.push(253);
            out.extend(&value.to_le_bytes()[..2]);
        }
        _ => {
            out.push(254);
            out.extend(value.to_le_bytes());
        }
    }
}

/// An operation: its kind in the upper three bits and its argument below them,
/// or 31 there and the argument as a number after it.
fn operation(out: &mut Vec<u8>, [kind, argument]: [u32; 2]) {
    let below = argument.min(31);
    out.push((kind << 5 | below) as u8);
    if below == 31 {
        number(out, argument);
    }
}

/// The job's words, the first line of its answer, the operations; the code in front.
fn record(job: &Sampled) -> Vec<u8> {
    let mut out = vec![job.answer.code as u8];
    number(&mut out, job.bytes.len() as u32 / 4);
    for four in job.bytes.chunks_exact(4) {
        number(&mut out, u32::from_le_bytes([four[0], four[1], four[2], four[3]]));
    }
    let printed = driver::print(&job.after, &job.answer);
    let first = printed.split_inclusive('\n').next().expect("an answer has a first line");
    out.push(first.len() as u8);
    out.extend(first.bytes());
    number(&mut out, job.answer.ops as u32);
    for op in lines(&job.after.ops[..2 * job.answer.ops]) {
        operation(&mut out, op.words());
    }
    out
}

/// The number of records, then each with its length before it.
fn file(jobs: &[Sampled]) -> Vec<u8> {
    let mut out = (jobs.len() as u32).to_le_bytes().to_vec();
    for record in jobs.iter().map(record) {
        out.extend((record.len() as u32).to_le_bytes());
        out.extend(record);
    }
    out
}

/// The codes that came, each with how often.
fn codes(jobs: &[Sampled]) -> String {
    let mut codes: BTreeMap<u32, usize> = BTreeMap::new();
    for job in jobs {
        *codes.entry(job.answer.code).or_default() += 1;
    }
    codes.iter().map(|(code, count)| format!(" {code}:{count}")).collect()
}

fn main() {
    let Some(folder) = std::env::args().nth(1) else {
        eprintln!("usage: record FOLDER");
        std::process::exit(2);
    };
    let (mut all, mut size) = (0, 0);
    sample(EACH, &mut |class, jobs| {
        let bytes = file(&jobs);
        all += jobs.len();
        size += bytes.len();
        println!("{class} {} jobs,{}, 0 differ", jobs.len(), codes(&jobs));
        let name = Path::new(&folder).join(class);
        fs::write(&name, bytes).unwrap_or_else(|error| panic!("{}: {error}", name.display()));
    });
    println!("{all} jobs, 0 differ");
    eprintln!("{all} jobs in {size} bytes");
}
