//! The library's calls over lent buffers: nothing is allocated.

use crate::{answers, raw, Decoded, Ran, Read, Refusal};

/// Reads the set text and writes its statement records, 8 bytes each, to the front of `set` and its
/// map records, 4 bytes each, to the front of `map`. A refusal leaves both as they were; a success
/// leaves the bytes beyond the records.
pub fn read(text: &[u8], set: &mut [u8], map: &mut [u8]) -> Result<Read, Refusal> {
    // SAFETY: each pointer comes with its slice's length. The library reads and writes inside these
    // alone, for any content, and keeps none of them; a slice's pointer is never null.
    let packed = unsafe {
        raw::deepchalk_read(
            text.as_ptr(),
            text.len(),
            set.as_mut_ptr(),
            set.len(),
            map.as_mut_ptr(),
            map.len(),
        )
    };
    answers::read_answer(packed)
}

/// Runs the schedule over the set and the map and writes its trace, 24 bytes a step, to the front
/// of `trace`. A refusal leaves `trace` as it was; a success leaves the bytes beyond the steps.
pub fn simulate(set: &[u8], map: &[u8], schedule: &[u8], trace: &mut [u8]) -> Result<Ran, Refusal> {
    // SAFETY: as in `read`.
    let packed = unsafe {
        raw::deepchalk_simulate(
            set.as_ptr(),
            set.len(),
            map.as_ptr(),
            map.len(),
            schedule.as_ptr(),
            schedule.len(),
            trace.as_mut_ptr(),
            trace.len(),
        )
    };
    answers::run_answer(packed)
}

/// Compares the trace, step by step, with the run that its choices make over the set and the map.
pub fn replay(set: &[u8], map: &[u8], trace: &[u8]) -> Result<Ran, Refusal> {
    // SAFETY: as in `read`.
    let packed = unsafe {
        raw::deepchalk_replay(
            set.as_ptr(),
            set.len(),
            map.as_ptr(),
            map.len(),
            trace.as_ptr(),
            trace.len(),
        )
    };
    answers::run_answer(packed)
}

/// How many formula records the table of the set, the map and the bound has.
pub fn table_size(set: &[u8], map: &[u8], bound: u64) -> Result<u32, Refusal> {
    // SAFETY: as in `read`.
    let packed = unsafe {
        raw::deepchalk_table_size(set.as_ptr(), set.len(), map.as_ptr(), map.len(), bound)
    };
    answers::table_answer(packed)
}

/// Writes the table of the set, the map and the bound, 16 bytes a record, to the front of `table`
/// and gives the number of its records. A refusal leaves `table` as it was; a success leaves the
/// bytes beyond the records.
pub fn encode(set: &[u8], map: &[u8], bound: u64, table: &mut [u8]) -> Result<u32, Refusal> {
    // SAFETY: as in `read`.
    let packed = unsafe {
        raw::deepchalk_encode(
            set.as_ptr(),
            set.len(),
            map.as_ptr(),
            map.len(),
            bound,
            table.as_mut_ptr(),
            table.len(),
        )
    };
    answers::table_answer(packed)
}

/// Whether the model satisfies the table of the set, the map and the bound. `work` needs 32 bytes for
/// each record of the table. A refusal other than 16 leaves `work` as it was; else all of it is 0.
pub fn check(
    set: &[u8],
    map: &[u8],
    bound: u64,
    model: &[u8],
    work: &mut [u8],
) -> Result<(), Refusal> {
    // SAFETY: as in `read`.
    let packed = unsafe {
        raw::deepchalk_check(
            set.as_ptr(),
            set.len(),
            map.as_ptr(),
            map.len(),
            bound,
            model.as_ptr(),
            model.len(),
            work.as_mut_ptr(),
            work.len(),
        )
    };
    answers::check_answer(packed)
}

/// Writes the trace of the model's run, 24 bytes a step, to the front of `trace` and the map that it
/// replays over, 4 bytes a cell, to the front of `decoded_map`. `trace` needs 24 bytes for each step of
/// the bound, `decoded_map` 1,024 bytes. A refusal leaves both as they were; a success leaves the bytes
/// beyond. `work` is as in `check`.
pub fn decode(
    set: &[u8],
    map: &[u8],
    bound: u64,
    model: &[u8],
    work: &mut [u8],
    trace: &mut [u8],
    decoded_map: &mut [u8],
) -> Result<Decoded, Refusal> {
    // SAFETY: as in `read`.
    let packed = unsafe {
        raw::deepchalk_decode(
            set.as_ptr(),
            set.len(),
            map.as_ptr(),
            map.len(),
            bound,
            model.as_ptr(),
            model.len(),
            work.as_mut_ptr(),
            work.len(),
            trace.as_mut_ptr(),
            trace.len(),
            decoded_map.as_mut_ptr(),
            decoded_map.len(),
        )
    };
    answers::decode_answer(packed)
}
