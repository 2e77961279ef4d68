//! Traces: compose, read, decisions, parts and events.

mod compose;
mod demand3;
mod embedded;
mod events;
mod fixed;
#[cfg(target_os = "linux")]
mod guarded;
#[cfg(target_os = "linux")]
mod huge;
mod options;
mod parts;
mod read;
mod refused;
mod sample;
mod show;
mod stage;
