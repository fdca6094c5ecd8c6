//! The port's calls. With the feature `archive` they go into the archive;
//! without it the second reading stands in, and what is compared is that one.
//! A shuffle is put to both calls of the archive that shuffle: what the one over
//! plain slices answers is compared with the original, and the one on a state has
//! to agree with it.

pub use side::{NAME, check, shuffle, timed};

#[cfg(not(feature = "archive"))]
mod side {
    use oracle_job::Job;
    pub use second::{check, shuffle};

    pub const NAME: &str = "the second reading, standing in for the port (no archive is linked)";

    /// The call, for timing; the answer is the end stack's height. This stand-in
    /// uses the job's own buffers.
    pub fn timed(job: &Job, _spill: &mut [u32], _ops: &mut [u32]) -> usize {
        shuffle(&mut job.clone()).stack.len()
    }
}

#[cfg(feature = "archive")]
mod side {
    use oracle_job::{Answer, HEIGHT, Job, Verdict};

    pub const NAME: &str = "the port's archive";

    /// The end stack: the last `stack_len` words, top first.
    #[repr(C)]
    struct Stack {
        stack_raw: [u32; HEIGHT],
        stack_len: u16,
    }

    impl Stack {
        fn values(&self) -> &[u32] {
            let height = usize::from(self.stack_len);
            assert!(height <= HEIGHT, "the port's end stack is {height} high");
            &self.stack_raw[HEIGHT - height..]
        }
    }

    /// A stack on its way, with what belongs to it in the two buffers.
    #[repr(C)]
    struct State {
        stack: Stack,
        first: u32,
        filled: usize,
        written: usize,
    }

    #[repr(C)]
    struct CAnswer {
        code: u32,
        shrink_ticks: u32,
        grow_ticks: u32,
        ops: usize,
        slots: usize,
        stack: Stack,
    }

    #[repr(C)]
    struct CVerdict {
        code: u32,
        index: usize,
        gas: u64,
        filled: usize,
    }

    unsafe extern "C" {
        fn njallavet_shuffle(
            start: *const u32,
            start_len: usize,
            spill: *mut u32,
            spill_len: usize,
            filled: usize,
            first: u32,
            target: *const u32,
            target_len: usize,
            max_swap_depth: u8,
            max_dup_depth: u8,
            ops: *mut u32,
            ops_len: usize,
        ) -> CAnswer;

        fn njallavet_run(
            state: *mut State,
            spill: *mut u32,
            spill_len: usize,
            target: *const u32,
            target_len: usize,
            max_swap_depth: u8,
            max_dup_depth: u8,
            ops: *mut u32,
            ops_len: usize,
        ) -> CAnswer;

        fn njallavet_check(
            start: *const u32,
            start_len: usize,
            spill: *mut u32,
            spill_len: usize,
            filled: usize,
            first: u32,
            target: *const u32,
            target_len: usize,
            max_swap_depth: u8,
            max_dup_depth: u8,
            ops: *const u32,
            ops_len: usize,
        ) -> CVerdict;
    }

    /// Lent words between guards, so that a write past either end shows.
    struct Guarded(Vec<u32>);

    const GUARD: u32 = 0xdead_beef;
    const GUARDS: usize = 16;

    impl Guarded {
        fn new(words: &[u32]) -> Self {
            let guards = [GUARD; GUARDS];
            Self([&guards[..], words, &guards[..]].concat())
        }

        fn lent(&mut self) -> *mut u32 {
            self.0[GUARDS..].as_mut_ptr()
        }

        fn take_back(self, words: &mut [u32]) {
            let (before, rest) = self.0.split_at(GUARDS);
            let (inside, after) = rest.split_at(words.len());
            let whole = before.iter().chain(after).all(|&guard| guard == GUARD);
            assert!(whole, "the port wrote outside a lent buffer");
            words.copy_from_slice(inside);
        }
    }

    /// One call, with these two buffers lent for writing.
    fn call(job: &Job, spill: *mut u32, ops: *mut u32) -> CAnswer {
        // SAFETY: the callers lend buffers as long as the job's own, which live
        // through the call and overlap nothing else that is lent.
        unsafe {
            njallavet_shuffle(
                job.start.as_ptr(),
                job.start.len(),
                spill,
                job.spill.len(),
                job.filled,
                job.first,
                job.target.as_ptr(),
                job.target.len(),
                job.swap,
                job.dup,
                ops,
                job.ops.len(),
            )
        }
    }

    /// The call, for timing, with buffers that are used again and again; the
    /// stored values are put there first. The answer is the end stack's height.
    pub fn timed(job: &Job, spill: &mut [u32], ops: &mut [u32]) -> usize {
        assert!(job.spill.len() <= spill.len() && job.ops.len() <= ops.len());
        spill[..job.filled].copy_from_slice(&job.spill[..job.filled]);
        usize::from(call(job, spill.as_mut_ptr(), ops.as_mut_ptr()).stack.stack_len)
    }

    impl From<CAnswer> for Answer {
        fn from(answer: CAnswer) -> Answer {
            Answer {
                code: answer.code,
                shrink_ticks: answer.shrink_ticks,
                grow_ticks: answer.grow_ticks,
                ops: answer.ops,
                slots: answer.slots,
                stack: answer.stack.values().to_vec(),
            }
        }
    }

    pub fn shuffle(job: &mut Job) -> Answer {
        let lent = job.clone();
        let (mut spill, mut ops) = (Guarded::new(&job.spill), Guarded::new(&job.ops));
        let answer = Answer::from(call(job, spill.lent(), ops.lent()));
        spill.take_back(&mut job.spill);
        ops.take_back(&mut job.ops);
        match run_says_the_same(&lent, job, &answer) {
            true => answer,
            false => Answer { code: RUN_DIFFERS, ..answer },
        }
    }

    /// No code of the port's: the call on a state came to something else than the
    /// call over plain slices.
    const RUN_DIFFERS: u32 = 98;

    /// How many operations stand before those of a run on a state.
    const BEFORE: usize = 3;

    /// `lent` put to the call on a state, with operations written before it; `after`
    /// and `answer` are what the call over plain slices made of it. A start that is
    /// higher than a state can be has no such call.
    fn run_says_the_same(lent: &Job, after: &Job, answer: &Answer) -> bool {
        let Some(free) = HEIGHT.checked_sub(lent.start.len()) else {
            return true;
        };
        let mut stack_raw = [0x5555_5555; HEIGHT];
        stack_raw[free..].copy_from_slice(&lent.start);
        let stack_len = lent.start.len() as u16; // at most 1,024
        let mut state = State {
            stack: Stack { stack_raw, stack_len },
            first: lent.first,
            filled: lent.filled,
            written: BEFORE,
        };
        let (mut spill, mut words) = (lent.spill.clone(), vec![9; 2 * BEFORE]);
        words.extend(&lent.ops);
        // SAFETY: three buffers and a state of this function's own.
        let own = Answer::from(unsafe {
            njallavet_run(
                &mut state,
                spill.as_mut_ptr(),
                spill.len(),
                lent.target.as_ptr(),
                lent.target.len(),
                lent.swap,
                lent.dup,
                words.as_mut_ptr(),
                words.len(),
            )
        });
        // a job that is refused leaves the state as it was lent
        let left = match answer.code {
            1..=5 => (&lent.start[..], lent.filled, BEFORE),
            _ => (&answer.stack[..], answer.slots, BEFORE + answer.ops),
        };
        own == *answer
            && (spill == after.spill && words[2 * BEFORE..] == after.ops)
            && words[..2 * BEFORE].iter().all(|&word| word == 9)
            && (state.stack.values(), state.filled, state.written) == left
            && state.first == lent.first
    }

    pub fn check(job: &mut Job) -> Verdict {
        let mut spill = Guarded::new(&job.spill);
        // SAFETY: each pointer and length describe a live buffer, and the one
        // that is written to overlaps nothing else.
        let verdict = unsafe {
            njallavet_check(
                job.start.as_ptr(),
                job.start.len(),
                spill.lent(),
                job.spill.len(),
                job.filled,
                job.first,
                job.target.as_ptr(),
                job.target.len(),
                job.swap,
                job.dup,
                job.ops.as_ptr(),
                job.ops.len(),
            )
        };
        spill.take_back(&mut job.spill);
        let CVerdict { code, index, gas, filled } = verdict;
        Verdict { code, index, gas, filled }
    }
}
