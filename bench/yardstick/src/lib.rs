//! What the program `yardstick` is made of, for its test.

pub mod brute;
pub mod partition;
pub mod plan;
pub mod report;
pub mod search;
pub mod words;
