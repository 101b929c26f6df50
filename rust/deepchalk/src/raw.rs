//! The functions that `libdeepchalk.a` exports, as `include/deepchalk.h` declares them.
//! Each buffer is a pointer and a length; the pointer of an empty buffer is not null either.

extern "C" {
    pub fn deepchalk_read(
        text: *const u8,
        text_len: usize,
        set: *mut u8,
        set_len: usize,
        map: *mut u8,
        map_len: usize,
    ) -> u64;

    pub fn deepchalk_simulate(
        set: *const u8,
        set_len: usize,
        map: *const u8,
        map_len: usize,
        schedule: *const u8,
        schedule_len: usize,
        trace: *mut u8,
        trace_len: usize,
    ) -> u64;

    pub fn deepchalk_replay(
        set: *const u8,
        set_len: usize,
        map: *const u8,
        map_len: usize,
        trace: *const u8,
        trace_len: usize,
    ) -> u64;

    pub fn deepchalk_table_size(
        set: *const u8,
        set_len: usize,
        map: *const u8,
        map_len: usize,
        bound: u64,
    ) -> u64;

    pub fn deepchalk_encode(
        set: *const u8,
        set_len: usize,
        map: *const u8,
        map_len: usize,
        bound: u64,
        table: *mut u8,
        table_len: usize,
    ) -> u64;

    pub fn deepchalk_check(
        set: *const u8,
        set_len: usize,
        map: *const u8,
        map_len: usize,
        bound: u64,
        model: *const u8,
        model_len: usize,
        work: *mut u8,
        work_len: usize,
    ) -> u64;

    pub fn deepchalk_decode(
        set: *const u8,
        set_len: usize,
        map: *const u8,
        map_len: usize,
        bound: u64,
        model: *const u8,
        model_len: usize,
        work: *mut u8,
        work_len: usize,
        trace: *mut u8,
        trace_len: usize,
        decoded_map: *mut u8,
        decoded_map_len: usize,
    ) -> u64;
}
