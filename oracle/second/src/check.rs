//! The replay checker: does a list of operation words lead from the start to
//! the target within the limits, and if not, where does it go wrong?

use oracle_job::{HEIGHT, Job, Verdict, codes::check as code};

use crate::refuse::refuse;

struct Replay<'a> {
    /// Bottom first.
    stack: Vec<u32>,
    spill: &'a mut [u32],
    filled: usize,
    first: u32,
    swap: u32,
    dup: u32,
}

/// Replays the job's operation words, all of them. Stores are written into the
/// job's spill buffer.
pub fn check(job: &mut Job) -> Verdict {
    if let Some(code) = refuse(job) {
        return Verdict { code, ..Verdict::default() };
    }
    let mut replay = Replay {
        stack: job.start.iter().rev().copied().collect(),
        spill: &mut job.spill,
        filled: job.filled,
        first: job.first,
        swap: job.swap.into(),
        dup: job.dup.into(),
    };
    if job.ops.len() % 2 == 1 {
        return Verdict { code: code::ODD_WORDS, filled: job.filled, ..Verdict::default() };
    }
    let mut gas = 0u64;
    for (index, pair) in job.ops.chunks_exact(2).enumerate() {
        if let Err(code) = replay.step(pair[0], pair[1]) {
            return Verdict { code, index, gas, filled: replay.filled };
        }
        gas = gas.saturating_add(if pair[0] <= 3 { 3 } else { 6 });
    }
    let same = replay.stack.iter().rev().eq(&job.target);
    let code = if same { oracle_job::codes::DONE } else { code::UNLIKE };
    Verdict { code, index: job.ops.len() / 2, gas, filled: replay.filled }
}

fn unless(fault: bool, code: u32) -> Result<(), u32> {
    if fault { Err(code) } else { Ok(()) }
}

impl Replay<'_> {
    /// Does one operation, or names the first thing that is wrong with it.
    fn step(&mut self, kind: u32, argument: u32) -> Result<(), u32> {
        match kind {
            1 => self.swap(argument),
            2 => self.dup(argument),
            3 => self.pop(argument),
            4 => self.store(argument),
            5 => self.load(argument),
            _ => Err(code::KIND),
        }
    }

    fn swap(&mut self, depth: u32) -> Result<(), u32> {
        unless(depth == 0 || depth > self.swap, code::SWAP_DEPTH)?;
        let height = self.stack.len();
        unless(depth as usize >= height, code::SWAP_BELOW)?;
        self.stack.swap(height - 1, height - 1 - depth as usize);
        Ok(())
    }

    fn dup(&mut self, depth: u32) -> Result<(), u32> {
        unless(depth > self.dup, code::DUP_DEPTH)?;
        let height = self.stack.len();
        unless(depth as usize >= height, code::DUP_BELOW)?;
        unless(height >= HEIGHT, code::HEIGHT)?;
        self.stack.push(self.stack[height - 1 - depth as usize]);
        Ok(())
    }

    fn pop(&mut self, argument: u32) -> Result<(), u32> {
        unless(argument != 0, code::KIND)?;
        self.stack.pop().map(drop).ok_or(code::EMPTY)
    }

    fn store(&mut self, slot: u32) -> Result<(), u32> {
        unless(self.stack.is_empty(), code::EMPTY)?;
        let next = u64::from(self.first) + self.filled as u64;
        unless(u64::from(slot) != next, code::WRONG_SLOT)?;
        unless(self.filled >= self.spill.len(), code::NO_SLOT)?;
        self.spill[self.filled] = self.stack.pop().ok_or(code::EMPTY)?;
        self.filled += 1;
        Ok(())
    }

    fn load(&mut self, slot: u32) -> Result<(), u32> {
        unless(self.stack.len() >= HEIGHT, code::HEIGHT)?;
        let entry = slot.checked_sub(self.first).map(|entry| entry as usize);
        match entry.filter(|&entry| entry < self.filled) {
            Some(entry) => self.stack.push(self.spill[entry]),
            None => return Err(code::NOT_FILLED),
        }
        Ok(())
    }
}
