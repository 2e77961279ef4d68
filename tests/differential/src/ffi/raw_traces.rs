//! The header's declarations for traces.

/// `gw_part`.
#[repr(C)]
#[derive(Clone, Copy, Debug, PartialEq, Eq)]
pub struct Part {
    pub place: u64,
    pub length: u64,
}

/// `gw_done`.
#[repr(C)]
#[derive(Clone, Copy, Debug, PartialEq, Eq)]
pub struct Done {
    pub counter: u64,
    pub appended: u64,
    pub report_length: u64,
    pub message_length: u64,
}

extern "C" {
    pub(in super::super) fn gw_compose(
        sheet: *const u32,
        values: *const u32,
        options: u32,
        fields: *const u32,
        format: *const u8,
        user: *const u8,
        user_size: usize,
        buffer: *mut u8,
        size: usize,
    ) -> u64;

    pub(in super::super) fn gw_compose_plain(
        sheet: *const u32,
        values: *const u32,
        buffer: *mut u8,
        size: usize,
    ) -> u64;

    pub(in super::super) fn gw_read(
        buffer: *const u8,
        size: usize,
        length: usize,
        sheet: *const u32,
        options: u32,
        values: *mut u32,
        fields: *mut u32,
        format: *mut u8,
    ) -> u64;

    pub(in super::super) fn gw_forward(
        buffer: *const u8,
        size: usize,
        length: usize,
        sheet: *const u32,
        options: u32,
    ) -> u64;

    pub(in super::super) fn gw_arrive(
        buffer: *const u8,
        size: usize,
        length: usize,
        sheet: *const u32,
        options: u32,
    ) -> u64;

    pub(in super::super) fn gw_activity_group(
        buffer: *const u8,
        size: usize,
        length: usize,
        sheet: *const u32,
        options: u32,
        n: usize,
        part: *mut Part,
    );

    /// C's `bool` is returned as one byte. Taken as a byte here, any value of
    /// it is fine for Rust and the wrapper can test that it is 0 or 1.
    pub(in super::super) fn gw_named_string(
        buffer: *const u8,
        size: usize,
        length: usize,
        sheet: *const u32,
        options: u32,
        n: usize,
        identifier: u32,
        part: *mut Part,
    ) -> u8;

    pub(in super::super) fn gw_discontinuity(
        buffer: *mut u8,
        size: usize,
        length: usize,
        sheet: *const u32,
        options: u32,
        done: *mut Done,
    ) -> u64;

    pub(in super::super) fn gw_activity(
        buffer: *mut u8,
        size: usize,
        length: usize,
        sheet: *const u32,
        options: u32,
        level: u32,
        group: *const u8,
        group_size: usize,
        report: *mut u8,
        report_size: usize,
        done: *mut Done,
    ) -> u64;
}
