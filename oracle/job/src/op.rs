//! One operation, as two words and as a line of text.

use std::fmt;

#[derive(Debug, Clone, Copy, PartialEq, Eq)]
pub enum Op {
    Swap(u8),
    Dup(u8),
    Pop,
    Store(u32),
    Load(u32),
}

impl Op {
    /// Kind and argument.
    pub fn words(self) -> [u32; 2] {
        match self {
            Op::Swap(depth) => [1, depth.into()],
            Op::Dup(depth) => [2, depth.into()],
            Op::Pop => [3, 0],
            Op::Store(slot) => [4, slot],
            Op::Load(slot) => [5, slot],
        }
    }

    /// The operation that two words stand for, if they stand for one.
    pub fn from_words(kind: u32, argument: u32) -> Option<Self> {
        let depth = u8::try_from(argument).ok();
        match kind {
            1 => depth.map(Op::Swap),
            2 => depth.map(Op::Dup),
            3 => (argument == 0).then_some(Op::Pop),
            4 => Some(Op::Store(argument)),
            5 => Some(Op::Load(argument)),
            _ => None,
        }
    }

    pub fn gas(self) -> u64 {
        match self {
            Op::Swap(_) | Op::Dup(_) | Op::Pop => 3,
            Op::Store(_) | Op::Load(_) => 6,
        }
    }
}

impl fmt::Display for Op {
    fn fmt(&self, f: &mut fmt::Formatter<'_>) -> fmt::Result {
        match self {
            Op::Swap(depth) => write!(f, "Swap({depth})"),
            Op::Dup(depth) => write!(f, "Dup({depth})"),
            Op::Pop => write!(f, "Pop"),
            Op::Store(slot) => write!(f, "store({slot})"),
            Op::Load(slot) => write!(f, "load({slot})"),
        }
    }
}

/// The operations that these words hold, in order.
pub fn lines(words: &[u32]) -> impl Iterator<Item = Op> + '_ {
    words.chunks_exact(2).map(|pair| {
        Op::from_words(pair[0], pair[1])
            .unwrap_or_else(|| panic!("no operation has the words {} {}", pair[0], pair[1]))
    })
}
