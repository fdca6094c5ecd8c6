//! The driver's job file and its answer lines.

use oracle_job::{Answer, Job, codes, lines};

/// The longest job file, the slots and the operations that the driver lends.
pub const LONGEST: usize = 16_420;
pub const SLOTS: usize = 2_048;
pub const ROOM: usize = 4_096;

const HEAD: usize = 36;

/// The job in these bytes, or nothing if they are not a job.
pub fn parse(bytes: &[u8]) -> Option<Job> {
    if bytes.len() > LONGEST || bytes.len() < HEAD || bytes.len() % 4 != 0 {
        return None;
    }
    let words: Vec<u32> = bytes
        .chunks_exact(4)
        .map(|four| u32::from_le_bytes([four[0], four[1], four[2], four[3]]))
        .collect();
    let (head, mut rest) = words.split_at(9);
    let mut lists = Vec::new();
    let mut offset = HEAD as u64;
    for pair in head[..6].chunks_exact(2) {
        let count = pair[0] as usize;
        if u64::from(pair[1]) != offset || count > rest.len() {
            return None;
        }
        let (list, after) = rest.split_at(count);
        lists.push(list.to_vec());
        rest = after;
        offset += 4 * count as u64;
    }
    if !rest.is_empty() {
        return None;
    }
    let (swap, dup) = (u8::try_from(head[7]).ok()?, u8::try_from(head[8]).ok()?);
    let [start, spilled, target] = lists.try_into().ok()?;
    let filled = spilled.len();
    let mut spill = spilled;
    spill.resize(SLOTS, 0);
    Some(Job { start, spill, filled, first: head[6], target, swap, dup, ops: vec![0; 2 * ROOM] })
}

/// The same job with the buffers that the driver lends.
pub fn lend(job: &Job) -> Job {
    let mut spill = job.spill[..job.filled.min(job.spill.len())].to_vec();
    spill.resize(SLOTS, 0);
    Job { spill, ops: vec![0; 2 * ROOM], ..job.clone() }
}

/// The job file for this job; the sizes of its buffers are not in it.
pub fn bytes(job: &Job) -> Vec<u8> {
    let spilled = &job.spill[..job.filled.min(job.spill.len())];
    let counts = [job.start.len(), spilled.len(), job.target.len()];
    let mut words = Vec::new();
    let mut offset = HEAD;
    for count in counts {
        words.extend([count as u32, offset as u32]);
        offset += 4 * count;
    }
    words.extend([job.first, job.swap.into(), job.dup.into()]);
    for list in [&job.start[..], spilled, &job.target[..]] {
        words.extend_from_slice(list);
    }
    words.iter().flat_map(|word| word.to_le_bytes()).collect()
}

/// What the driver prints for a job that was answered.
pub fn print(job: &Job, answer: &Answer) -> String {
    let ops = &job.ops[..2 * answer.ops];
    let gas: u64 = lines(ops).map(|op| op.gas()).sum();
    let mut out = format!(
        "answer {} shrink {} grow {} ops {} slots {} gas {gas}\n",
        answer.code, answer.shrink_ticks, answer.grow_ticks, answer.ops, answer.slots,
    );
    for op in lines(ops) {
        out += &format!("{op}\n");
    }
    out
}

/// What the driver prints for bytes that are not a job.
pub fn print_malformed() -> String {
    format!("answer {} shrink 0 grow 0 ops 0 slots 0 gas 0\n", codes::JOB)
}
