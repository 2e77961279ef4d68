//! Generators of inputs for comparison runs: sound and damaged messages,
//! traces, lent groups, sheets and lists of events, all from a seed.
//!
//! A generator never relies on the decoder for what is sound: soundness comes
//! from how the bytes are built. Only damage asks the decoder where the
//! structures of a sound message stand.
//!
//! Whoever wants a case says in which layout its message is to be built; for
//! cases of all layouts `any_layout` is asked first. The case itself says in
//! which layout it is to be read: a sound one in its own, and now and then one
//! of the others in another.

mod build;
mod compose;
mod damage;
mod damage_embedded;
mod decoy;
mod embed;
mod event;
mod group;
mod layout;
mod leaf;
mod lend;
mod message;
mod pair;
mod place;
mod random;
mod sheet;
mod text;
mod trace;
mod tree;
mod user_data;
mod values;

pub use build::{assemble, Piece};
pub use compose::{compose_case, ComposeCase};
pub use damage::{damage, damaged_message, noise};
pub use embed::{any_embedding, embed, lay_out, Laid};
pub use event::{scenario, sound_scenario, Scenario, Step};
pub use group::{lent_group, sound_group, unsound_group};
pub use layout::{any_layout, other_layout};
pub use lend::{lend, other_length, wrong_length, Lent};
pub use message::{any_message, sound_message, SoundMessage};
pub use pair::{pair, Pair};
pub use place::any_place;
pub use random::Random;
pub use sheet::{any_sheet, sound_sheet, unsound_sheet};
pub use text::NEAR_MISSES;
pub use trace::{
    any_trace, damaged_trace, faulty_trace, sound_trace, sound_trace_with, Fault, TraceCase, FAULTS,
};
pub use tree::{chain, deep_chain, forest, tree};
pub use values::{any_values, out_of_range, values};

/// Identifiers that the generators use for names in Activity groups, so that
/// questions for a named string often have an answer.
pub const NAMES: [u32; 4] = [3001, 3002, 3003, 8005];
