//! Runs one job on the original shuffler and says what came of it in the
//! port's terms. It sits in this crate because `new_from_parts` is private to it.

use std::{
    any::Any,
    cell::RefCell,
    panic::{self, AssertUnwindSafe},
    sync::Once,
};

use oracle_job::{Answer, HEIGHT, Job, Op, codes};
use plank_core::{Idx, ticks};
use sir_data::StaticAllocId;

use crate::{
    greedy_shuffler::GreedyShuffler,
    op_graph::ValueNodeId,
    stack::{ScheduleConfig, StackOps, TrackedStack},
};

/// Leaves the original code from its sink, with a room code.
struct Stop(u32);

/// A panic of the original: what it said, and in which file.
#[derive(Debug, Clone)]
pub struct Panicked {
    pub message: String,
    pub file: String,
}

thread_local! {
    static RUNNING: RefCell<bool> = const { RefCell::new(false) };
    static PANICKED: RefCell<Option<Panicked>> = const { RefCell::new(None) };
}

/// The last panic on this thread that has no code.
pub fn last_unknown() -> Option<Panicked> {
    PANICKED.with_borrow(Clone::clone)
}

/// Keeps the original's panics off the screen; those of the host still show.
fn quiet_panics() {
    static ONCE: Once = Once::new();
    ONCE.call_once(|| {
        let usual = panic::take_hook();
        panic::set_hook(Box::new(move |info| {
            if !RUNNING.with_borrow(|running| *running) {
                return usual(info);
            }
            let file = info.location().map(|place| place.file().to_owned()).unwrap_or_default();
            let message = said(info.payload());
            PANICKED.set(Some(Panicked { message, file }));
        }));
    });
}

fn said(payload: &dyn Any) -> String {
    match (payload.downcast_ref::<&str>(), payload.downcast_ref::<String>()) {
        (Some(text), _) => (*text).to_owned(),
        (_, Some(text)) => text.clone(),
        _ => String::new(),
    }
}

/// The code for a panic, told by its words; reads outside a stack are told by
/// the file too, so that a fault of the host is not taken for one.
fn code_of(panicked: &Panicked) -> u32 {
    let says = |words: &str| panicked.message.starts_with(words);
    let outside = ["attempt to subtract with overflow", "index out of bounds", "range end index"];
    if says("nothing spilled at alloc") {
        codes::MISSING
    } else if says("stack overflow: your program uses") {
        codes::FULL
    } else if says("assertion failed: self.unspill_unavailable_horizon()") {
        codes::STUCK
    } else if says("loop limit hit (100000)") {
        codes::TICKS
    } else if panicked.file.contains("greedy_shuffler") && outside.into_iter().any(says) {
        codes::INSIDE
    } else {
        codes::UNKNOWN
    }
}

/// The lines of the original where each loop ticks: shrink's, then grow's.
const TICK_LINES: [u32; 2] = tick_lines(include_bytes!("greedy_shuffler/mod.rs"));

const fn tick_lines(text: &[u8]) -> [u32; 2] {
    let call = b"limit.tick()";
    let (mut lines, mut found, mut line, mut at) = ([0, 0], 0, 1, 0);
    while at + call.len() <= text.len() {
        let mut same = 0;
        while same < call.len() && text[at + same] == call[same] {
            same += 1;
        }
        if same == call.len() {
            lines[found] = line;
            found += 1;
        }
        if text[at] == b'\n' {
            line += 1;
        }
        at += 1;
    }
    assert!(found == 2, "the original ticks in two places");
    lines
}

/// What the sink has let through, and the room that is left.
struct Sink {
    ops: Vec<Op>,
    room: usize,
    free_slots: usize,
}

impl Sink {
    fn take(&mut self, op: StackOps) {
        let op = plain(op);
        if matches!(op, Op::Store(_)) {
            if self.free_slots == 0 {
                panic::resume_unwind(Box::new(Stop(codes::SPILL)));
            }
            self.free_slots -= 1;
        }
        if self.ops.len() == self.room {
            panic::resume_unwind(Box::new(Stop(codes::OPS)));
        }
        self.ops.push(op);
    }
}

fn plain(op: StackOps) -> Op {
    match op {
        StackOps::Swap(depth) => Op::Swap(depth),
        StackOps::Dup(depth) => Op::Dup(depth),
        StackOps::Pop => Op::Pop,
        StackOps::Store(slot) => Op::Store(slot.get()),
        StackOps::Load(slot) => Op::Load(slot.get()),
        other => panic!("the shuffler wrote {other}"),
    }
}

fn values(words: &[u32]) -> Vec<ValueNodeId> {
    words.iter().map(|&word| ValueNodeId::new(word)).collect()
}

fn words(values: &[ValueNodeId]) -> Vec<u32> {
    values.iter().map(|value| value.get()).collect()
}

fn config(job: &Job) -> ScheduleConfig {
    ScheduleConfig {
        max_swap_depth: job.swap,
        max_dup_depth: job.dup,
        max_exchange_range: job.swap,
        exchange_cost: 9,
    }
}

/// The first of the codes 1 to 5 that applies. The original has no such tests
/// but that of the start's height; they are laid around it.
fn refused(job: &Job) -> Option<u32> {
    let last_slot = u64::from(job.first) + job.spill.len() as u64;
    let tests = [
        (codes::LIMIT, job.swap < 1),
        (codes::START, job.start.len() > HEIGHT),
        (codes::TARGET, job.target.len() > HEIGHT),
        (codes::FILLED, job.filled > job.spill.len()),
        (codes::SLOTS, last_slot > u64::from(u32::MAX)),
    ];
    tests.into_iter().find(|(_, applies)| *applies).map(|(code, _)| code)
}

/// Answers the job with the original code. The job's buffers are changed as a
/// shuffle that keeps to the port's rules would change them.
pub fn shuffle(job: &mut Job) -> Answer {
    if let Some(code) = refused(job) {
        return Answer::refused(code);
    }
    let free_slots = job.spill.len() - job.filled;
    let mut sink = Sink { ops: Vec::new(), room: job.room(), free_slots };
    let (code, own) = run(job, &mut sink);
    let (shrink_ticks, grow_ticks) = (ticks::take(TICK_LINES[0]), ticks::take(TICK_LINES[1]));
    let replayed = replay(job, &sink.ops);
    // The stack and list are changed before the sink is called, so where the
    // sink refused they are one operation ahead; otherwise both must agree.
    let code = match code {
        codes::SPILL | codes::OPS => code,
        _ if own == replayed => code,
        _ => codes::UNKNOWN,
    };
    let (stack, spilled) = replayed;
    job.spill[..spilled.len()].copy_from_slice(&spilled);
    for (pair, op) in job.ops.chunks_exact_mut(2).zip(&sink.ops) {
        pair.copy_from_slice(&op.words());
    }
    Answer { code, shrink_ticks, grow_ticks, ops: sink.ops.len(), slots: spilled.len(), stack }
}

/// Runs the original: the code, and the stack and spill list it is left with.
fn run(job: &Job, sink: &mut Sink) -> (u32, (Vec<u32>, Vec<u32>)) {
    quiet_panics();
    let target = values(&job.target);
    let mut current = TrackedStack::new_from_parts(
        StaticAllocId::new(job.first),
        |op| sink.take(op),
        &values(&job.start),
        values(&job.spill[..job.filled]),
    );
    RUNNING.set(true);
    let outcome = panic::catch_unwind(AssertUnwindSafe(|| {
        GreedyShuffler::run(config(job), &mut current, &target);
    }));
    RUNNING.set(false);
    let code = match outcome {
        Ok(()) => codes::DONE,
        Err(payload) => match payload.downcast_ref::<Stop>() {
            Some(Stop(code)) => *code,
            None => last_unknown().map_or(codes::UNKNOWN, |panicked| code_of(&panicked)),
        },
    };
    (code, (words(current.fifo()), words(current.underlying_spilled())))
}

/// The stack (top first) and spill list after these operations.
fn replay(job: &Job, ops: &[Op]) -> (Vec<u32>, Vec<u32>) {
    let mut stack: Vec<u32> = job.start.iter().rev().copied().collect();
    let mut spilled = job.spill[..job.filled].to_vec();
    for op in ops {
        let top = stack.len().wrapping_sub(1);
        match *op {
            Op::Swap(depth) => stack.swap(top, top - usize::from(depth)),
            Op::Dup(depth) => stack.push(stack[top - usize::from(depth)]),
            Op::Pop => drop(stack.pop()),
            Op::Store(_) => spilled.extend(stack.pop()),
            Op::Load(slot) => stack.push(spilled[(slot - job.first) as usize]),
        }
    }
    stack.reverse();
    (stack, spilled)
}

/// A job made ready for the original, so that nothing but its own work is timed.
pub struct Ready {
    first: StaticAllocId,
    start: Vec<ValueNodeId>,
    spilled: Vec<ValueNodeId>,
    slots: usize,
    target: Vec<ValueNodeId>,
    config: ScheduleConfig,
}

impl Ready {
    pub fn new(job: &Job) -> Self {
        Self {
            first: StaticAllocId::new(job.first),
            start: values(&job.start),
            spilled: values(&job.spill[..job.filled]),
            slots: job.spill.len(),
            target: values(&job.target),
            config: config(job),
        }
    }

    /// Makes the stack, shuffles it and leaves the operations in a list that is
    /// used again and again; the answer is the end stack's height.
    pub fn run(&self, ops: &mut Vec<StackOps>) -> usize {
        ops.clear();
        let mut spilled = Vec::with_capacity(self.slots);
        spilled.extend_from_slice(&self.spilled);
        let sink = |op| ops.push(op);
        let mut current = TrackedStack::new_from_parts(self.first, sink, &self.start, spilled);
        GreedyShuffler::run(self.config, &mut current, &self.target);
        current.fifo().len()
    }
}
