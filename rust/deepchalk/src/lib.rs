//! Deepchalk for Rust: safe calls to the proved library.
//! Set texts, records, trace steps, schedules, formula tables, models and refusals are document 01's.
//!
//! [`Set`] holds what its calls need and gives owned answers. The functions beside it, such as
//! [`simulate`], take and fill buffers that the caller lends.
//!
//! ```
//! use deepchalk::{End, FailingRun, Part, Refusal, Set};
//!
//! // Thread 0 stores 1 at address 0; thread 1 fails if it still reads 0 there.
//! let set = Set::read(b"ADDI 1\nSTORE 0\n.\nLOAD 0\nJZ 3\nEXIT 0\nEXIT 7\n.\n0 0\n")?;
//!
//! // The store waits in thread 0's buffer while thread 1 runs.
//! let (trace, ran) = set.simulate(&[0, 0, 1, 1, 1])?;
//! assert_eq!(ran.end, End::Code(7));
//! assert_eq!(set.replay(&trace), Ok(ran));
//!
//! // A byte of the trace changed: step 4 is no longer the run's.
//! let mut changed = trace.clone();
//! changed[4 * deepchalk::STEP_BYTES + 8] = 1;
//! assert_eq!(set.replay(&changed), Err(Refusal::Differs { step: 4 }));
//!
//! // A table for a solver, and a model that one may give: in each step a bit for each thread's
//! // execute, then one for each thread's flush.
//! let table = set.encode(3)?;
//! assert_eq!(table.len() % deepchalk::FORMULA_BYTES, 0);
//! let model = [0, 1, 0, 0, 0, 1, 0, 0, 0, 1, 0, 0];
//! set.check(3, &model)?;
//! let FailingRun { trace, map } = set.decode(3, &model)?;
//! assert_eq!(set.replay_over(&map, &trace)?.end, End::Code(7));
//!
//! // A model that takes no choice in step 2, before the end: the table has a record that says so.
//! let stops = [0, 1, 0, 0, 0, 1, 0, 0, 0, 0, 0, 0];
//! assert_eq!(set.check(3, &stops), Err(Refusal::NotSatisfied { record: 189 }));
//! assert_eq!(set.part_of(3, 189)?, Some(Part::Step(2)));
//! # Ok::<(), Refusal>(())
//! ```

mod answers;
mod calls;
pub mod raw;
mod refusal;
mod set;

pub use answers::{Decoded, End, Ran, Read};
pub use calls::{check, decode, encode, read, replay, simulate, table_size};
pub use refusal::Refusal;
pub use set::{FailingRun, Part, Set};

/// The most bytes of a set text.
pub const MAX_TEXT: usize = 16_384;
/// Bytes of a statement record.
pub const STATEMENT_BYTES: usize = 8;
/// The most statements of a set.
pub const MAX_STATEMENTS: usize = 128;
/// Bytes of a map record.
pub const CELL_BYTES: usize = 4;
/// The most cells of a text's map.
pub const MAX_SET_MAP: usize = 128;
/// Bytes of a trace step.
pub const STEP_BYTES: usize = 24;
/// The most steps of a schedule or a trace, and the largest bound.
pub const MAX_STEPS: usize = 64;
/// Bytes of a formula record.
pub const FORMULA_BYTES: usize = 16;
/// Bytes of work memory for each formula record.
pub const WORK_BYTES: usize = 32;
/// Bytes of output that a decoded map needs.
pub const MAP_ROOM: usize = 1_024;
