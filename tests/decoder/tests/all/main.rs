//! All tests of the decoder in one program, one module for each subject.

mod both_forms;
mod demand3;
mod embedded;
mod embedded_compose;
mod embedded_damage;
mod embedded_entries;
mod embedded_events;
mod embedded_order;
mod event_004;
mod examples;
mod generated;
mod helpers;
mod levels;
mod names;
mod plain;
mod readings_events;
mod readings_messages;
mod readings_traces;
mod refusals;
mod spread;
mod spread_embedded;
mod spread_names;
mod total;
