//! The parts that the host programs share.

pub mod classes;
pub mod compare;
pub mod driver;
pub mod port;
pub mod reduce;
pub mod rng;
pub mod sample;
pub mod text;
