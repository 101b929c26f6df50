//! The second simulator, reader, encoder and decoder: document 01's machine, simulation, replay, set
//! texts, formula tables, model check, decoding and listing in plain Rust.
//! It is written from document 01, the readings in docs/DECISIONS.md and the order of records in
//! docs/TABLE.md, so that the proved library can be compared with it.

pub mod answers;
pub mod cases;
pub mod check;
pub mod decode;
pub mod encode;
pub mod evaluate;
pub mod example_files;
pub mod examples;
pub mod formula;
pub mod instructions;
pub mod lines;
pub mod listing;
pub mod litmus;
pub mod machine;
pub mod memory;
pub mod model;
pub mod read;
pub mod records;
pub mod replay;
pub mod script;
pub mod search;
pub mod simulate;
pub mod sizes;
pub mod trace;
pub mod well_formed;

pub use answers::{End, Ran, Refusal};
pub use check::check;
pub use decode::{decode, Decoded};
pub use encode::{encode, table_size};
pub use evaluate::{first_false, Assignment, Evaluation};
pub use formula::{formulas, Formula};
pub use instructions::Instruction;
pub use listing::listing;
pub use machine::{Choice, Machine, Report, Thread};
pub use memory::{Cell, Memory};
pub use model::{accept_model, Model};
pub use read::{read, Read};
pub use records::{accept_map, accept_set, Set, Statement};
pub use replay::replay;
pub use simulate::simulate;
pub use well_formed::well_formed;
