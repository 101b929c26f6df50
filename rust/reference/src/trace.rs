//! Trace steps: the 24 bytes that hold the state before a step.

use crate::records::field;
use crate::{Cell, Choice, Instruction, Machine, Statement};

pub const STEP_BYTES: usize = 24;
/// Of a run, a schedule or a trace.
pub const MAX_STEPS: usize = 64;
/// The instruction number of a flush.
pub const FLUSH: u8 = 20;

/// A trace step's fields.
#[derive(Clone, Copy, Debug, PartialEq, Eq)]
pub struct Step {
    pub thread: u8,
    /// The statement that executes; none for a flush.
    pub statement: Option<Statement>,
    pub pc: u16,
    pub full: bool,
    pub accu: u16,
    pub mem: u16,
    pub adr: u16,
    pub val: u16,
    /// The cell that the previous step wrote.
    pub written: Option<Cell>,
}

impl Step {
    /// That of a choice that the machine permits.
    pub fn of(machine: &Machine, choice: Choice) -> Step {
        let number = choice.thread();
        let thread = &machine.threads()[number];
        let statement = match choice {
            Choice::Execute(_) => Some(machine.statement(number)),
            Choice::Flush(_) => None,
        };
        Step {
            thread: number as u8,
            statement,
            pc: thread.pc as u16,
            full: thread.full,
            accu: thread.accu,
            mem: thread.mem,
            adr: thread.adr,
            val: thread.val,
            written: machine.written(),
        }
    }

    /// None if no step has these bytes.
    pub fn from_bytes(bytes: [u8; STEP_BYTES]) -> Option<Step> {
        let statement = Instruction::from_number(bytes[1]).map(|instruction| Statement {
            instruction,
            indirect: bytes[6] == 1,
            argument: field(&bytes, 4),
        });
        let written = (bytes[16] == 1).then(|| Cell {
            address: field(&bytes, 18),
            value: field(&bytes, 20),
        });
        let step = Step {
            thread: bytes[0],
            statement,
            pc: field(&bytes, 2),
            full: bytes[7] == 1,
            accu: field(&bytes, 8),
            mem: field(&bytes, 10),
            adr: field(&bytes, 12),
            val: field(&bytes, 14),
            written,
        };
        // Numbers, marks and zeros that are not as they must be come out otherwise.
        (step.bytes() == bytes).then_some(step)
    }

    /// As the listing prints it.
    pub fn word(&self) -> &'static str {
        match self.statement {
            Some(statement) => statement.instruction.word(),
            None => "FLUSH",
        }
    }

    pub fn bytes(&self) -> [u8; STEP_BYTES] {
        let mut bytes = [0; STEP_BYTES];
        let mut put = |at: usize, word: u16| bytes[at..at + 2].copy_from_slice(&word.to_le_bytes());
        put(2, self.pc);
        put(8, self.accu);
        put(10, self.mem);
        put(12, self.adr);
        put(14, self.val);
        if let Some(cell) = self.written {
            put(16, 1);
            put(18, cell.address);
            put(20, cell.value);
        }
        if let Some(statement) = self.statement {
            put(4, statement.argument);
            bytes[6] = u8::from(statement.indirect);
        }
        let number = self.statement.map(|s| s.instruction.number());
        bytes[0] = self.thread;
        bytes[1] = number.unwrap_or(FLUSH);
        bytes[7] = u8::from(self.full);
        bytes
    }
}

/// The trace step of a choice that the machine permits.
pub fn trace_step(machine: &Machine, choice: Choice) -> [u8; STEP_BYTES] {
    Step::of(machine, choice).bytes()
}

/// "Replay takes the choice from a step's thread and from whether its number is 20."
pub fn choice_of(step: &[u8]) -> Choice {
    let thread = usize::from(step[0]);
    if step[1] == FLUSH {
        Choice::Flush(thread)
    } else {
        Choice::Execute(thread)
    }
}

#[cfg(test)]
mod tests {
    use super::*;

    /// CAS [5] of thread 1 at pc 3, after a step that wrote 10 at 4.
    const STEP: [u8; STEP_BYTES] = [
        1, 16, 3, 0, 5, 0, 1, 0, 7, 0, 8, 0, 9, 0, 2, 1, 1, 0, 4, 0, 10, 0, 0, 0,
    ];

    #[test]
    fn fields_and_bytes() {
        let step = Step::from_bytes(STEP).unwrap();
        assert_eq!((step.thread, step.pc, step.word()), (1, 3, "CAS"));
        assert_eq!(
            step.statement,
            Some(Statement::indirect(Instruction::Cas, 5))
        );
        assert_eq!([step.accu, step.mem, step.adr, step.val], [7, 8, 9, 258]);
        let (address, value) = (4, 10);
        assert_eq!(step.written, Some(Cell { address, value }));
        assert_eq!(step.bytes(), STEP);
        let mut flush = [0; STEP_BYTES];
        (flush[1], flush[7]) = (FLUSH, 1);
        let step = Step::from_bytes(flush).unwrap();
        assert_eq!(
            (step.statement, step.word(), step.full),
            (None, "FLUSH", true)
        );
        assert_eq!(step.bytes(), flush);
    }

    #[test]
    fn bytes_that_no_step_has() {
        for (at, value) in [(1, 21), (6, 2), (7, 2), (16, 0), (16, 2), (17, 1), (22, 1)] {
            let mut bytes = STEP;
            bytes[at] = value;
            assert_eq!(Step::from_bytes(bytes), None, "byte {at}");
        }
        // A flush has no argument.
        let mut bytes = STEP;
        bytes[1] = FLUSH;
        assert_eq!(Step::from_bytes(bytes), None);
    }
}
