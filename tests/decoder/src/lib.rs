//! An independent decoder for the PCF and trace-route rules
//! (`01-scope.md` and the later requests), written from the papers alone so that
//! its answers can be compared with those of the proved library.
//!
//! Every public function of the decoding modules is total: any bytes, any
//! length, any place, without panic or overflow. A refusal changes no byte of
//! a lent buffer.
//!
//! A message is always given as a lent buffer and a length: the message is the
//! buffer's first `length` bytes, and only the buffer's size matters behind it.
//! How it is laid out the caller says too, in one value, to every entry; an
//! event has it in its settings.

mod apply;
mod attribute;
mod check;
mod compose;
mod decision;
mod embedded;
mod event;
mod header;
mod layout;
mod lent;
mod listing;
mod part;
mod refusal;
pub mod sample;
mod sheet;
mod structure;
mod trace;
mod walk;
mod word;

pub mod generate;

pub use apply::{activity, apply, discontinuity};
pub use attribute::{
    Values, ACCUMULATE_IN_MESSAGE, ACCUMULATE_NONE, ACCUMULATE_WITH_REPLY, ATTRIBUTES, COUNTER_MAX,
    DELIVER_NO, DELIVER_YES, DETAIL_HIGH, DETAIL_LOW, DETAIL_MEDIUM, FORWARD_ALL,
    FORWARD_IF_SUPPORTED, UNRECOGNISED,
};
pub use check::{check, rows, step, tally, Tally, KINDS};
pub use compose::{compose, COMPOSED_LENGTH};
pub use decision::{arrival, forwarding, Arrival};
pub use embedded::{Embedding, EMBEDDED_HEADER_LENGTH};
pub use event::{Activity, Applied, Counter, Event, EventRefusal, Level, Settings};
pub use header::{Header, HEADER_LENGTH, MESSAGE_MAX};
pub use layout::{Form, Layout};
pub use lent::{lent_group_is_sound, LENT_MAX, LENT_MIN};
pub use listing::{list, listing, listing_of_input};
pub use part::{activity_group, named_string, Named, Part};
pub use refusal::Refusal;
pub use sheet::Sheet;
pub use structure::{Row, DEEPEST_GROUP};
pub use trace::{locate, read, Contents, Trace, ACTIVITY_GROUP, TRACE_ROUTE_GROUP};
