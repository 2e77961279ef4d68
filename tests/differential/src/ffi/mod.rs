//! `libgwirandol.a` through its C header, as safe functions with plain types.
//!
//! The header's promises make every call sound: a function reads and writes
//! only what it is lent, keeps no pointer, and answers for every input. Its
//! two conditions are met by the types here: slices and references are valid
//! for their whole size, and what is lent with `&mut` overlaps nothing else.

mod answer;
mod embedded;
mod lend;
mod raw;
mod refusals;
mod structures;
mod traces;

pub use answer::Answer;
pub use embedded::{Around, Fields, Format, EMBEDDED};
pub use raw::Row;
pub use refusals::{feedback, version, words, WORDS_BYTES};
pub use structures::{check, list, step, tally, KINDS, LISTING_BYTES};
pub use {
    raw::{Done, Part},
    traces::{
        activity, activity_group, arrive, compose, compose_plain, discontinuity, forward,
        named_string, read, Activity, Contents, Eight,
    },
};
