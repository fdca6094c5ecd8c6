//! The state of one run and the five operations on it. Stacks are kept bottom
//! first here, so that a position is an index.

use oracle_job::{HEIGHT, Job, Op, codes};

/// A refusal, with its code.
pub struct Stop(pub u32);

pub type Step<T = ()> = Result<T, Stop>;

pub struct Machine<'a> {
    pub current: Vec<u32>,
    pub target: Vec<u32>,
    pub complete: usize,
    pub swap: usize,
    pub dup: usize,
    first: u32,
    spill: &'a mut [u32],
    pub filled: usize,
    words: &'a mut [u32],
    pub written: usize,
}

impl<'a> Machine<'a> {
    pub fn new(job: &'a mut Job) -> Self {
        Self {
            current: job.start.iter().rev().copied().collect(),
            target: job.target.iter().rev().copied().collect(),
            complete: 0,
            swap: job.swap.into(),
            dup: job.dup.into(),
            first: job.first,
            spill: &mut job.spill,
            filled: job.filled,
            words: &mut job.ops,
            written: 0,
        }
    }

    pub fn height(&self) -> usize {
        self.current.len()
    }

    /// The current stack at a position, or the refusal for a read outside it.
    pub fn c(&self, p: usize) -> Step<u32> {
        self.current.get(p).copied().ok_or(Stop(codes::INSIDE))
    }

    /// The target at a position, or the refusal for a read outside it.
    pub fn t(&self, p: usize) -> Step<u32> {
        self.target.get(p).copied().ok_or(Stop(codes::INSIDE))
    }

    /// The latest slot that holds this value.
    pub fn stored(&self, value: u32) -> Option<usize> {
        (0..self.filled).rev().find(|&i| self.spill[i] == value)
    }

    fn room_above(&self) -> Step {
        if self.height() < HEIGHT { Ok(()) } else { Err(Stop(codes::FULL)) }
    }

    fn write(&mut self, op: Op) -> Step {
        let at = 2 * self.written;
        if at + 2 > self.words.len() {
            return Err(Stop(codes::OPS));
        }
        self.words[at..at + 2].copy_from_slice(&op.words());
        self.written += 1;
        Ok(())
    }

    pub fn pop(&mut self) -> Step {
        self.c(self.height().wrapping_sub(1))?;
        self.write(Op::Pop)?;
        self.current.pop();
        Ok(())
    }

    /// Exchanges the top with a position; on the top itself this is nothing.
    pub fn swap_with(&mut self, p: usize) -> Step {
        let top = self.height() - 1;
        if p == top {
            return Ok(());
        }
        self.write(Op::Swap((top - p) as u8))?;
        self.current.swap(top, p);
        Ok(())
    }

    pub fn dup_at(&mut self, depth: usize) -> Step {
        let value = self.c(self.height() - 1 - depth)?;
        self.room_above()?;
        self.write(Op::Dup(depth as u8))?;
        self.current.push(value);
        Ok(())
    }

    pub fn store(&mut self) -> Step {
        let value = self.c(self.height().wrapping_sub(1))?;
        if self.filled == self.spill.len() {
            return Err(Stop(codes::SPILL));
        }
        self.write(Op::Store(self.first + self.filled as u32))?;
        self.spill[self.filled] = value;
        self.filled += 1;
        self.current.pop();
        Ok(())
    }

    pub fn load(&mut self, value: u32) -> Step {
        let slot = self.stored(value).ok_or(Stop(codes::MISSING))?;
        self.room_above()?;
        self.write(Op::Load(self.first + slot as u32))?;
        self.current.push(value);
        Ok(())
    }
}
