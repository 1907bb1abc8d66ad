//! The C interface, as include/timeslices.h declares it.

/// An answer: kind 0 is a refusal with its number, other kinds depend on the call.
#[repr(C)]
pub struct Answer {
    pub kind: u32,
    pub number: u32,
}

/// The answer of `tsl_property`: which table, and where in it.
#[repr(C)]
pub struct Part {
    pub kind: u32,
    pub number: u32,
    pub at: u64,
    pub size: u64,
}

unsafe extern "C" {
    pub fn tsl_new_table(
        table: *mut u8,
        table_len: usize,
        side: u8,
        feature: *const [u8; 16],
    ) -> Answer;

    pub fn tsl_arrive(
        table: *mut u8,
        table_len: usize,
        slice: *const u8,
        slice_len: usize,
    ) -> Answer;

    pub fn tsl_permanent_state(
        permanent: *const u8,
        permanent_len: usize,
        instant: u32,
        record: *mut u8,
        record_len: usize,
    ) -> Answer;

    pub fn tsl_snapshot(
        permanent: *const u8,
        permanent_len: usize,
        temporary: *const u8,
        temporary_len: usize,
        instant: u32,
        record: *mut u8,
        record_len: usize,
    ) -> Answer;

    pub fn tsl_property(
        permanent: *const u8,
        permanent_len: usize,
        temporary: *const u8,
        temporary_len: usize,
        instant: u32,
        property: u8,
    ) -> Part;

    pub fn tsl_touched(
        temporary: *const u8,
        temporary_len: usize,
        instant: u32,
        property: u8,
    ) -> Answer;

    pub fn tsl_derive(
        permanent: *const u8,
        permanent_len: usize,
        output: *mut u8,
        output_len: usize,
    ) -> Answer;

    pub fn tsl_listing(
        permanent: *const u8,
        permanent_len: usize,
        text: *mut u8,
        text_len: usize,
    ) -> Answer;
}
