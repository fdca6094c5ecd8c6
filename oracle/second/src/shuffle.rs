//! The two loops, the finish and the entry.

use oracle_job::{Answer, Job, TICKS, codes};

use crate::{
    machine::{Machine, Step, Stop},
    refuse::refuse,
};

fn tick(ticks: &mut u32) -> Step {
    if *ticks == TICKS {
        return Err(Stop(codes::TICKS));
    }
    *ticks += 1;
    Ok(())
}

impl Machine<'_> {
    fn shrink(&mut self, ticks: &mut u32) -> Step {
        while self.height() - self.complete > self.swap + 1 {
            tick(ticks)?;
            let stepped = self.a()? || self.b()? || self.c_rule()? || self.d()? || self.e()?;
            if !stepped {
                self.store()?;
            }
            self.count_completed();
        }
        Ok(())
    }

    fn grow(&mut self, ticks: &mut u32) -> Step {
        while self.complete < self.target.len() {
            tick(ticks)?;
            let stepped = self.height() > self.complete
                && (self.a()? || self.b()? || self.x()? || self.c_rule()?);
            if !stepped {
                self.push_or_store()?;
            }
            self.count_completed();
        }
        Ok(())
    }

    fn push_or_store(&mut self) -> Step {
        if !self.may_push()? {
            return self.store();
        }
        if self.u()? || self.v()? || self.w()? { Ok(()) } else { Err(Stop(codes::STUCK)) }
    }

    fn run(&mut self, shrink_ticks: &mut u32, grow_ticks: &mut u32) -> Step {
        self.count_completed();
        self.shrink(shrink_ticks)?;
        self.grow(grow_ticks)?;
        while self.height() > self.target.len() {
            self.pop()?;
        }
        Ok(())
    }
}

/// Answers the job by the step rules, in the job's own buffers.
pub fn shuffle(job: &mut Job) -> Answer {
    if let Some(code) = refuse(job) {
        return Answer::refused(code);
    }
    let mut machine = Machine::new(job);
    let (mut shrink_ticks, mut grow_ticks) = (0, 0);
    let code = match machine.run(&mut shrink_ticks, &mut grow_ticks) {
        Ok(()) => codes::DONE,
        Err(Stop(code)) => code,
    };
    Answer {
        code,
        shrink_ticks,
        grow_ticks,
        ops: machine.written,
        slots: machine.filled,
        stack: machine.current.iter().rev().copied().collect(),
    }
}
