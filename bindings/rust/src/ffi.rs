//! The declarations of `bindings/njallavet.h`, and the only unsafe code.
//!
//! What the interface asks of a caller, and who sees to it: a slice's pointer is not null and is aligned, of an empty slice too, and its
//! length is that of the words behind it (Rust's slices); what is written overlaps nothing else (`&mut`); the structs are laid out as the
//! archive has them (the assertions below); a state is a value of its struct (it can be made in no other way).

use crate::{Limits, Spill};
use std::mem::{align_of, offset_of, size_of};

#[derive(Clone, Copy)]
#[repr(C)]
pub struct Stack {
    pub stack_raw: [u32; 1024],
    pub stack_len: u16,
}

#[repr(C)]
pub struct Answer {
    pub code: u32,
    pub shrink_ticks: u32,
    pub grow_ticks: u32,
    pub ops: usize,
    pub slots: usize,
    pub stack: Stack,
}

#[derive(Clone, Copy)]
#[repr(C)]
pub struct State {
    pub stack: Stack,
    pub first: u32,
    pub filled: usize,
    pub written: usize,
}

#[repr(C)]
pub struct Verdict {
    pub code: u32,
    pub index: usize,
    pub gas: u64,
    pub filled: usize,
}

// A struct's size, its alignment and the place of each field; `bindings/c/layout.h` says the same of the header.
macro_rules! laid_out {
    ($kind:ident, $size:literal, $align:literal, $($field:ident $at:literal),*) => {
        const _: () = assert!(size_of::<$kind>() == $size && align_of::<$kind>() == $align);
        $(const _: () = assert!(offset_of!($kind, $field) == $at);)*
    };
}

laid_out!(Stack, 4100, 4, stack_raw 0, stack_len 4096);
laid_out!(Answer, 4136, 8, code 0, shrink_ticks 4, grow_ticks 8, ops 16, slots 24, stack 32);
laid_out!(State, 4120, 8, stack 0, first 4100, filled 4104, written 4112);
laid_out!(Verdict, 32, 8, code 0, index 8, gas 16, filled 24);

extern "C" {
    fn njallavet_shuffle(
        start: *const u32,
        start_len: usize,
        spill: *mut u32,
        spill_len: usize,
        filled: usize,
        first: u32,
        target: *const u32,
        target_len: usize,
        max_swap_depth: u8,
        max_dup_depth: u8,
        ops: *mut u32,
        ops_len: usize,
    ) -> Answer;

    fn njallavet_run(
        state: *mut State,
        spill: *mut u32,
        spill_len: usize,
        target: *const u32,
        target_len: usize,
        max_swap_depth: u8,
        max_dup_depth: u8,
        ops: *mut u32,
        ops_len: usize,
    ) -> Answer;

    fn njallavet_check(
        start: *const u32,
        start_len: usize,
        spill: *mut u32,
        spill_len: usize,
        filled: usize,
        first: u32,
        target: *const u32,
        target_len: usize,
        max_swap_depth: u8,
        max_dup_depth: u8,
        ops: *const u32,
        ops_len: usize,
    ) -> Verdict;
}

impl Stack {
    /// The values, top first; every word where the length says more, as the archive reads it.
    pub fn values(&self) -> &[u32] {
        let height = usize::from(self.stack_len).min(self.stack_raw.len());
        &self.stack_raw[self.stack_raw.len() - height..]
    }
}

pub fn shuffle(
    start: &[u32],
    spill: Spill<'_>,
    target: &[u32],
    limits: Limits,
    ops: &mut [u32],
) -> Answer {
    // SAFETY: each pointer and length is a slice's, and the two that are written are borrowed mutably.
    unsafe {
        njallavet_shuffle(
            start.as_ptr(),
            start.len(),
            spill.words.as_mut_ptr(),
            spill.words.len(),
            spill.filled,
            spill.first,
            target.as_ptr(),
            target.len(),
            limits.max_swap_depth,
            limits.max_dup_depth,
            ops.as_mut_ptr(),
            ops.len(),
        )
    }
}

pub fn run(
    state: &mut State,
    spill: &mut [u32],
    target: &[u32],
    limits: Limits,
    ops: &mut [u32],
) -> Answer {
    // SAFETY: as above; the state is borrowed mutably, and every value of it has a meaning.
    unsafe {
        njallavet_run(
            state,
            spill.as_mut_ptr(),
            spill.len(),
            target.as_ptr(),
            target.len(),
            limits.max_swap_depth,
            limits.max_dup_depth,
            ops.as_mut_ptr(),
            ops.len(),
        )
    }
}

pub fn check(
    start: &[u32],
    spill: Spill<'_>,
    target: &[u32],
    limits: Limits,
    ops: &[u32],
) -> Verdict {
    // SAFETY: as for the shuffle; the operation words are only read.
    unsafe {
        njallavet_check(
            start.as_ptr(),
            start.len(),
            spill.words.as_mut_ptr(),
            spill.words.len(),
            spill.filled,
            spill.first,
            target.as_ptr(),
            target.len(),
            limits.max_swap_depth,
            limits.max_dup_depth,
            ops.as_ptr(),
            ops.len(),
        )
    }
}
