//! The one number in which the library's calls return what the second simulator, reader, encoder and
//! decoder answer.

use reference::records::{CELL_BYTES, STATEMENT_BYTES};
use reference::{Decoded, End, Ran, Read, Refusal};

/// The answer of simulation or replay: bits 0 to 7 the refusal's number, 0 on success; on success 8
/// to 15 the end, 16 to 31 the code, 32 to 47 the steps; on a refusal 32 to 63 the place; all others
/// 0.
pub fn packed(answer: Result<Ran, Refusal>) -> u64 {
    match answer {
        Err(refusal) => packed_refusal(refusal),
        Ok(Ran { steps, end }) => {
            let end = match end {
                End::Code(code) => u64::from(code) << 16,
                End::Stuck => 1 << 8,
                End::Open => 2 << 8,
            };
            u64::from(steps) << 32 | end
        }
    }
}

/// The answer of reading: bits 0 to 7 the refusal's number, 0 on success; on success 16 to 31 the
/// statements, 32 to 47 the cells; on a refusal 32 to 63 the place; all others 0.
pub fn packed_read(answer: &Result<Read, Refusal>) -> u64 {
    match answer {
        Err(refusal) => packed_refusal(*refusal),
        Ok(Read { set, map }) => {
            let statements = (set.len() / STATEMENT_BYTES) as u64;
            let cells = (map.len() / CELL_BYTES) as u64;
            statements << 16 | cells << 32
        }
    }
}

/// The answer of encoding or of a table's size: bits 0 to 7 the refusal's number, 0 on success; on
/// success 32 to 63 the records; on a refusal 32 to 63 the place; all others 0.
pub fn packed_table(answer: Result<u32, Refusal>) -> u64 {
    match answer {
        Err(refusal) => packed_refusal(refusal),
        Ok(records) => u64::from(records) << 32,
    }
}

/// The answer of the model check: bits 0 to 7 the refusal's number, 0 on success; on a refusal 32 to
/// 63 the place; all others 0.
pub fn packed_check(answer: Result<(), Refusal>) -> u64 {
    answer.map_or_else(packed_refusal, |()| 0)
}

/// The answer of decoding: bits 0 to 7 the refusal's number, 0 on success; on success 32 to 47 the
/// steps, 48 to 63 the cells; on a refusal 32 to 63 the place; all others 0.
pub fn packed_decode(answer: Result<Decoded, Refusal>) -> u64 {
    match answer {
        Err(refusal) => packed_refusal(refusal),
        Ok(Decoded { steps, cells }) => u64::from(steps) << 32 | u64::from(cells) << 48,
    }
}

fn packed_refusal(refusal: Refusal) -> u64 {
    u64::from(refusal.number) | u64::from(refusal.place) << 32
}
