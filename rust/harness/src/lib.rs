//! Runs the port beside the original Rust: the suites, the random days that
//! they run on, and the recorded answers.
#![forbid(unsafe_code)]

pub mod answers;
pub mod boundary;
pub mod bridge;
pub mod call;
pub mod constraint;
pub mod damage;
pub mod day;
pub mod day_file;
pub mod draws;
pub mod failure;
pub mod features;
pub mod lists;
pub mod options;
pub mod packing;
pub mod panics;
pub mod plan;
pub mod random;
pub mod reading;
pub mod recording;
pub mod records;
pub mod run;
pub mod schedule;
pub mod scores;
pub mod search;
pub mod shrink;
pub mod state;
pub mod suites;
