//! What the calls answer: a run's step count and end, or a numbered refusal with its place.

/// "A run that has not ended is stuck if no choice is permitted, else open."
#[derive(Clone, Copy, Debug, PartialEq, Eq)]
pub enum End {
    Code(u16),
    Stuck,
    Open,
}

/// A run that was accepted.
#[derive(Clone, Copy, Debug, PartialEq, Eq)]
pub struct Ran {
    pub steps: u16,
    pub end: End,
}

/// A refusal by its number in document 01's table, with its place.
#[derive(Clone, Copy, Debug, PartialEq, Eq)]
pub struct Refusal {
    pub number: u8,
    pub place: u32,
}

impl Refusal {
    /// Text above 16,384 bytes.
    pub const TEXT: Refusal = Refusal::plain(1);
    /// Threads not 1 to 4.
    pub const THREADS: Refusal = Refusal::plain(4);
    /// A thread's statements not 1 to 32.
    pub const STATEMENTS: Refusal = Refusal::plain(5);
    /// Label doubled in a thread, unknown, or target beyond the last statement.
    pub const LABELS: Refusal = Refusal::plain(6);
    /// More than 8 different checkpoints.
    pub const CHECKPOINTS: Refusal = Refusal::plain(7);
    /// Map address doubled, or above 128 cells in a text.
    pub const MAP: Refusal = Refusal::plain(8);
    /// Statement or map records not as document 01 has them.
    pub const RECORDS: Refusal = Refusal::plain(9);
    /// Bound not 1 to 64.
    pub const BOUND: Refusal = Refusal::plain(10);
    /// Lent output or work memory too short.
    pub const ROOM: Refusal = Refusal::plain(11);
    /// Model not as document 01 has it.
    pub const MODEL: Refusal = Refusal::plain(15);
    /// Schedule or trace above 64 steps, or trace not whole records.
    pub const LENGTH: Refusal = Refusal::plain(17);

    /// A refusal whose place is 0 by rule.
    const fn plain(number: u8) -> Refusal {
        Refusal { number, place: 0 }
    }

    fn at_step(number: u8, step: usize) -> Refusal {
        Refusal {
            number,
            // Runs have at most 64 steps.
            place: step as u32,
        }
    }

    /// Line malformed or forbidden byte. Lines count from 1.
    pub fn malformed(line: u32) -> Refusal {
        Refusal {
            number: 2,
            place: line,
        }
    }

    /// Number above 65,535.
    pub fn number_above(line: u32) -> Refusal {
        Refusal {
            number: 3,
            place: line,
        }
    }

    /// Choice not permitted, or machine has exited.
    pub fn not_permitted(step: usize) -> Refusal {
        Refusal::at_step(12, step)
    }

    /// Trace field differs.
    pub fn differs(step: usize) -> Refusal {
        Refusal::at_step(13, step)
    }

    /// First cell read that the map lacks.
    pub fn lacks_cell(step: usize) -> Refusal {
        Refusal::at_step(14, step)
    }

    /// First constraint or goal that is 0. Records count from 0.
    pub fn not_satisfied(record: usize) -> Refusal {
        Refusal {
            number: 16,
            // Tables have less than 2^17 records.
            place: record as u32,
        }
    }
}
