//! The proved library as plain Rust functions, and its comparison with the
//! independent decoder, call by call. `tests/` compares on generated messages of
//! both forms; the fuzzer in the repository's `fuzz/` on those that it finds.
//!
//! First `share/build library` in the repository's root, or the library's
//! folder in `GWIRANDOL_LIB`. Then `cargo test --release --offline`, with
//! `-- --nocapture` to see how many cases of each kind ran and how often each
//! answer came. `CASES` is the number of cases of each kind, `SEED` the seed
//! of the first. Where it is not below the usual number, every answer and every
//! kind of case has to have come often enough, in each form.

pub mod compare;
pub mod failure;
pub mod ffi;
#[cfg(target_os = "linux")]
pub mod guard;
pub mod spread;
