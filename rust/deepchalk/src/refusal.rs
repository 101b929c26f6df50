//! The numbered refusals of document 01, each with its place.

use std::error::Error;
use std::fmt;

/// Why a call was refused. Lines count from 1, steps and records from 0.
#[derive(Clone, Copy, Debug, PartialEq, Eq)]
pub enum Refusal {
    /// 1: text above 16,384 bytes.
    TextLength,
    /// 2: line malformed or forbidden byte.
    Malformed { line: u32 },
    /// 3: number above 65,535.
    Number { line: u32 },
    /// 4: threads not 1 to 4.
    Threads,
    /// 5: a thread's statements not 1 to 32.
    Statements,
    /// 6: label doubled in a thread, unknown, or target beyond the last statement.
    Label,
    /// 7: more than 8 different checkpoints.
    Checkpoints,
    /// 8: map address doubled, or above 128 cells in a text.
    Map,
    /// 9: statement or map records not as document 01 has them.
    Records,
    /// 10: bound not 1 to 64.
    Bound,
    /// 11: lent output or work memory too short.
    Room,
    /// 12: choice not permitted, or machine has exited.
    NotPermitted { step: u32 },
    /// 13: trace field differs.
    Differs { step: u32 },
    /// 14: first cell read that the map lacks.
    LacksCell { step: u32 },
    /// 15: model not as document 01 has it.
    Model,
    /// 16: first constraint or goal that is 0.
    NotSatisfied { record: u32 },
    /// 17: schedule or trace above 64 steps, or trace not whole records.
    Length,
}

use Refusal::*;

impl Refusal {
    /// The refusal of this number; none if there is no such number. The place counts only where the
    /// number has one.
    pub fn new(number: u8, place: u32) -> Option<Refusal> {
        Some(match number {
            1 => TextLength,
            2 => Malformed { line: place },
            3 => Number { line: place },
            4 => Threads,
            5 => Statements,
            6 => Label,
            7 => Checkpoints,
            8 => Map,
            9 => Records,
            10 => Bound,
            11 => Room,
            12 => NotPermitted { step: place },
            13 => Differs { step: place },
            14 => LacksCell { step: place },
            15 => Model,
            16 => NotSatisfied { record: place },
            17 => Length,
            _ => return None,
        })
    }

    /// The number in document 01's table.
    pub fn number(self) -> u8 {
        match self {
            TextLength => 1,
            Malformed { .. } => 2,
            Number { .. } => 3,
            Threads => 4,
            Statements => 5,
            Label => 6,
            Checkpoints => 7,
            Map => 8,
            Records => 9,
            Bound => 10,
            Room => 11,
            NotPermitted { .. } => 12,
            Differs { .. } => 13,
            LacksCell { .. } => 14,
            Model => 15,
            NotSatisfied { .. } => 16,
            Length => 17,
        }
    }

    /// The line, step or record; 0 where the number has no place.
    pub fn place(self) -> u32 {
        match self {
            Malformed { line } | Number { line } => line,
            NotPermitted { step } | Differs { step } | LacksCell { step } => step,
            NotSatisfied { record } => record,
            _ => 0,
        }
    }

    /// What the number stands for.
    pub fn meaning(self) -> &'static str {
        match self {
            TextLength => "text above 16,384 bytes",
            Malformed { .. } => "line malformed or forbidden byte",
            Number { .. } => "number above 65,535",
            Threads => "threads not 1 to 4",
            Statements => "a thread's statements not 1 to 32",
            Label => "label doubled in a thread, unknown, or target beyond the last statement",
            Checkpoints => "more than 8 different checkpoints",
            Map => "map address doubled, or above 128 cells in a text",
            Records => "statement or map records not as they must be",
            Bound => "bound not 1 to 64",
            Room => "lent output or work memory too short",
            NotPermitted { .. } => "choice not permitted, or machine has exited",
            Differs { .. } => "trace field differs",
            LacksCell { .. } => "first cell read that the map lacks",
            Model => "model not as it must be",
            NotSatisfied { .. } => "constraint or goal that is 0",
            Length => "schedule or trace above 64 steps, or trace not whole records",
        }
    }
}

/// The number, what it means, and where.
impl fmt::Display for Refusal {
    fn fmt(&self, f: &mut fmt::Formatter<'_>) -> fmt::Result {
        write!(f, "refused {}: {}", self.number(), self.meaning())?;
        match self {
            Malformed { line } | Number { line } => write!(f, ", in line {line}"),
            NotPermitted { step } | Differs { step } | LacksCell { step } => {
                write!(f, ", at step {step}")
            }
            NotSatisfied { record } => write!(f, ", in record {record}"),
            _ => Ok(()),
        }
    }
}

impl Error for Refusal {}

#[cfg(test)]
mod tests {
    use super::*;

    #[test]
    fn numbers_and_places() {
        for number in 1..=17 {
            let refusal = Refusal::new(number, 7).expect("1 to 17");
            assert_eq!(refusal.number(), number);
            let has_place = [2, 3, 12, 13, 14, 16].contains(&number);
            assert_eq!(refusal.place(), if has_place { 7 } else { 0 });
        }
        for number in [0, 18, 255] {
            assert_eq!(Refusal::new(number, 0), None);
        }
    }

    #[test]
    fn in_words() {
        for (refusal, words) in [
            (
                Malformed { line: 7 },
                "refused 2: line malformed or forbidden byte, in line 7",
            ),
            (
                Records,
                "refused 9: statement or map records not as they must be",
            ),
            (
                NotPermitted { step: 0 },
                "refused 12: choice not permitted, or machine has exited, at step 0",
            ),
            (
                Differs { step: 63 },
                "refused 13: trace field differs, at step 63",
            ),
            (
                NotSatisfied { record: 40 },
                "refused 16: constraint or goal that is 0, in record 40",
            ),
        ] {
            assert_eq!(refusal.to_string(), words);
        }
    }
}
