//! Coverage-guided comparison of the proved library with the independent
//! decoder: libFuzzer invents inputs, and whatever takes the decoder along a
//! new way is kept and changed further. `fuzz/run` builds and runs it.
//!
//! The feature `engine` has the functions that libFuzzer calls; without it the
//! package links by itself, for the seeds.
//!
//! An input is laid out as in [`layout`], becomes arguments in [`case`], and
//! all twelve functions are compared on these in [`compare`].

pub mod case;
pub mod compare;
mod embedded;
#[cfg(feature = "engine")]
mod engine;
pub mod layout;
pub mod mend;
mod message;
pub mod mutate;
mod structure;
pub mod tables;
