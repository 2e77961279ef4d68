//! The declarations of the header, as they stand there. A test compares the
//! header's text with the one that these were written from.

/// `gw_row`.
#[repr(C)]
#[derive(Clone, Copy, Debug, PartialEq, Eq)]
pub struct Row {
    pub depth: u64,
    pub place: u64,
    pub kind: u64,
    pub parameter: u64,
    pub length: u64,
    pub members: u64,
    pub next: u64,
}

extern "C" {
    pub(super) fn gw_version() -> u32;

    pub(super) fn gw_words(refusal: u32, text: *mut u8) -> usize;

    pub(super) fn gw_feedback(refusal: u32) -> u32;

    pub(super) fn gw_check(buffer: *const u8, size: usize, length: usize, options: u32) -> u64;

    pub(super) fn gw_tally(
        buffer: *const u8,
        size: usize,
        length: usize,
        options: u32,
        counts: *mut u32,
    ) -> u64;

    pub(super) fn gw_list(
        buffer: *const u8,
        size: usize,
        length: usize,
        options: u32,
        text: *mut u8,
    ) -> u64;

    pub(super) fn gw_step(
        buffer: *const u8,
        size: usize,
        length: usize,
        options: u32,
        place: usize,
        depth: u32,
        row: *mut Row,
    ) -> u64;
}

pub(super) use traces::{
    gw_activity, gw_activity_group, gw_arrive, gw_compose, gw_compose_plain, gw_discontinuity,
    gw_forward, gw_named_string, gw_read,
};
pub use traces::{Done, Part};

#[path = "raw_traces.rs"]
mod traces;
