//! All comparisons in one program, one module for each subject.
//!
//! The environment says how many cases of each kind there are (`CASES`) and
//! which is the first (`SEED`); a failing case prints both for itself.

mod fixed;
#[cfg(target_os = "linux")]
mod guarded;
mod header;
mod other;
mod refusals;
mod run;
mod spare;
mod structures;
mod traces;
