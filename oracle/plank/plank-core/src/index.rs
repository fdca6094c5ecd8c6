//! Stand-in for Plank's index types: a number of 32 bits that keeps all of its
//! values. The real types may hold fewer.

use std::{
    fmt::Debug,
    hash::Hash,
    ops::{Add, Sub},
};

/// What the original files ask of an index type.
pub trait Idx:
    Copy + Debug + Eq + Ord + Hash + Add<u32, Output = Self> + Sub<Self, Output = u32>
{
    const ZERO: Self;

    fn new(value: u32) -> Self;
    fn get(self) -> u32;
}

/// Makes index types in the way the original files write them.
#[macro_export]
macro_rules! newtype_index {
    ($($vis:vis struct $name:ident;)+) => {$(
        #[derive(Debug, Clone, Copy, PartialEq, Eq, PartialOrd, Ord, Hash)]
        #[repr(transparent)]
        $vis struct $name(u32);

        impl $name {
            pub const ZERO: Self = Self(0);
        }

        impl $crate::Idx for $name {
            const ZERO: Self = Self(0);

            fn new(value: u32) -> Self {
                Self(value)
            }

            fn get(self) -> u32 {
                self.0
            }
        }

        impl std::ops::Add<u32> for $name {
            type Output = Self;

            fn add(self, step: u32) -> Self {
                Self(self.0 + step)
            }
        }

        impl std::ops::Sub for $name {
            type Output = u32;

            fn sub(self, other: Self) -> u32 {
                self.0 - other.0
            }
        }

        impl std::fmt::Display for $name {
            fn fmt(&self, f: &mut std::fmt::Formatter<'_>) -> std::fmt::Result {
                write!(f, "{}", self.0)
            }
        }
    )+};
}
