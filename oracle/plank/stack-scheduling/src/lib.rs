//! A cut of Plank's `stack-scheduling`: `stack` and `greedy_shuffler` are the
//! original files; `op_graph` stands in for a module that is not wanted, and
//! `original` runs one job on the original code from inside its own crate.

pub use stack::ScheduleConfig;
pub mod op_graph;

#[allow(dead_code)]
#[rustfmt::skip]
mod greedy_shuffler;
pub mod original;
#[rustfmt::skip]
pub mod stack;
