//! What the comparing tests share: random and damaged inputs, guarded buffers, and counts of what
//! the runs reached. Everything is made from a seed, so that a failure can be made again.

pub mod assignments;
pub mod counts;
pub mod damage;
pub mod functions;
pub mod inputs;
pub mod judged;
pub mod lent;
pub mod maps;
pub mod models;
pub mod packed;
pub mod random;
pub mod schedules;
pub mod sets;
pub mod solver;
pub mod sources;
pub mod tables;
pub mod texts;

pub use counts::Counts;
pub use inputs::Input;
pub use lent::Lent;
pub use packed::{packed, packed_check, packed_decode, packed_read, packed_table};
pub use random::Random;
pub use texts::counts::TextCounts;
