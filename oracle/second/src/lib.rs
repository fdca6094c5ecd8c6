//! A second reading of document 01, written from its sentences and not from
//! the original code: the shuffle by its step rules, and the replay checker.
//! Plain and slow on purpose.

mod check;
mod machine;
mod refuse;
mod rules;
mod shuffle;

pub use check::check;
pub use shuffle::shuffle;
