//! Document 01's codes, each with its number, its name and what it says.

use std::error::Error;
use std::fmt;

/// A number that is no code of its kind.
#[derive(Debug, Clone, Copy, PartialEq, Eq)]
pub struct NoCode(pub u32);

impl fmt::Display for NoCode {
    fn fmt(&self, f: &mut fmt::Formatter<'_>) -> fmt::Result {
        write!(f, "{} is no such code", self.0)
    }
}

impl Error for NoCode {}

macro_rules! codes {
    ($(#[$about:meta])* $kind:ident { $($case:ident = $code:literal $name:literal $says:literal,)* }) => {
        $(#[$about])*
        #[derive(Debug, Clone, Copy, PartialEq, Eq, Hash)]
        #[repr(u32)]
        pub enum $kind {
            $(#[doc = concat!($code, " ", $name, ": ", $says, ".")] $case = $code,)*
        }

        impl $kind {
            /// Every one, by its number.
            pub const ALL: &'static [$kind] = &[$($kind::$case,)*];

            /// The number.
            pub const fn code(self) -> u32 {
                self as u32
            }

            /// The name.
            pub const fn name(self) -> &'static str {
                match self {
                    $($kind::$case => $name,)*
                }
            }

            const fn says(self) -> &'static str {
                match self {
                    $($kind::$case => $says,)*
                }
            }
        }

        impl TryFrom<u32> for $kind {
            type Error = NoCode;

            fn try_from(code: u32) -> Result<$kind, NoCode> {
                match code {
                    $($code => Ok($kind::$case),)*
                    other => Err(NoCode(other)),
                }
            }
        }

        /// The name, the number and what it says: `MISSING (6): the value to load is not stored`.
        impl fmt::Display for $kind {
            fn fmt(&self, f: &mut fmt::Formatter<'_>) -> fmt::Result {
                write!(f, "{} ({}): {}", self.name(), self.code(), self.says())
            }
        }

        impl Error for $kind {}
    };
}

codes! {
    /// What a shuffle refuses with, by document 01's number and name. 1 to 5 refuse the job, and nothing changes; 6 to 12 stop at one
    /// operation, and everything before it stands.
    Refusal {
        Limit = 1 "LIMIT" "the swap limit is 0",
        Start = 2 "START" "more than 1,024 start values",
        Target = 3 "TARGET" "more than 1,024 target values",
        Filled = 4 "FILLED" "more slots are filled than the spill buffer has",
        Slots = 5 "SLOTS" "a slot of the spill buffer has no number",
        Missing = 6 "MISSING" "the value to load is not stored",
        Full = 7 "FULL" "a push on 1,024 values",
        Stuck = 8 "STUCK" "no rule applies",
        Ticks = 9 "TICKS" "a loop would go on after 100,000 ticks",
        Spill = 10 "SPILL" "a store with no free slot",
        Ops = 11 "OPS" "no room for the operation",
        Inside = 12 "INSIDE" "a rule would read outside the stack or the target",
    }
}

codes! {
    /// What the checker finds first in a list that it does not accept. 1 to 5 are the job's; document 01 gives the others a number and no
    /// name, so the names are those of the definitions.
    Fault {
        Limit = 1 "LIMIT" "the swap limit is 0",
        Start = 2 "START" "more than 1,024 start values",
        Target = 3 "TARGET" "more than 1,024 target values",
        Filled = 4 "FILLED" "more slots are filled than the spill buffer has",
        Slots = 5 "SLOTS" "a slot of the spill buffer has no number",
        Odd = 30 "ODD" "an odd number of words",
        Unknown = 31 "UNKNOWN" "an unknown kind, or a pop with an argument",
        SwapFar = 32 "SWAP-FAR" "a swap depth that is 0 or above the swap limit",
        SwapBelow = 33 "SWAP-BELOW" "a swap below the bottom",
        DupFar = 34 "DUP-FAR" "a dup depth above the dup limit",
        DupBelow = 35 "DUP-BELOW" "a dup below the bottom",
        TooHigh = 36 "TOO-HIGH" "the stack would pass 1,024 values",
        NoneLeft = 37 "NONE-LEFT" "a pop or a store on an empty stack",
        OtherSlot = 38 "OTHER-SLOT" "a store that does not name the next slot",
        NoSlot = 39 "NO-SLOT" "a store with no free slot",
        NotFilled = 40 "NOT-FILLED" "a load of a slot that is not filled",
        Unlike = 41 "UNLIKE" "the end stack is unlike the target",
    }
}
