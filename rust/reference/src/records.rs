//! Statement and map records: which bytes are accepted as a set or a map (all else is refusal 9),
//! and the bytes of given statements and cells.

use crate::{Cell, Instruction, Refusal};
use std::fmt;

pub const STATEMENT_BYTES: usize = 8;
pub const CELL_BYTES: usize = 4;

pub const MAX_THREADS: usize = 4;
/// In one thread.
pub const MAX_STATEMENTS: usize = 32;
/// Different ones in one set.
pub const MAX_CHECKPOINTS: usize = 8;

/// "A set's map has at most 128 cells."
pub const MAX_SET_MAP: usize = 128;
/// "One given to simulation or replay 256."
pub const MAX_GIVEN_MAP: usize = 256;

#[derive(Clone, Copy, Debug, PartialEq, Eq)]
pub struct Statement {
    pub instruction: Instruction,
    pub indirect: bool,
    pub argument: u16,
}

impl Statement {
    pub fn new(instruction: Instruction, argument: u16) -> Statement {
        Statement {
            instruction,
            indirect: false,
            argument,
        }
    }

    /// With its argument in square brackets.
    pub fn indirect(instruction: Instruction, argument: u16) -> Statement {
        Statement {
            instruction,
            indirect: true,
            argument,
        }
    }
}

/// The line of a set text, a jump's target as its pc.
impl fmt::Display for Statement {
    fn fmt(&self, f: &mut fmt::Formatter<'_>) -> fmt::Result {
        f.write_str(self.instruction.word())?;
        match (self.instruction.has_argument(), self.indirect) {
            (false, _) => Ok(()),
            (true, false) => write!(f, " {}", self.argument),
            (true, true) => write!(f, " [{}]", self.argument),
        }
    }
}

/// A checkpoint and the threads that contain its CHECK.
#[derive(Clone, Debug, PartialEq, Eq)]
pub struct Checkpoint {
    pub number: u16,
    pub threads: Vec<usize>,
}

/// An accepted set.
#[derive(Clone, Debug, PartialEq, Eq)]
pub struct Set {
    pub threads: Vec<Vec<Statement>>,
    pub checkpoints: Vec<Checkpoint>,
}

/// The little-endian field at a byte of a record.
pub fn field(record: &[u8], at: usize) -> u16 {
    u16::from_le_bytes([record[at], record[at + 1]])
}

pub fn accept_set(bytes: &[u8]) -> Result<Set, Refusal> {
    read_set(bytes).ok_or(Refusal::RECORDS)
}

/// The map's cells, if there are at most `limit`.
pub fn accept_map(bytes: &[u8], limit: usize) -> Result<Vec<Cell>, Refusal> {
    read_map(bytes, limit).ok_or(Refusal::RECORDS)
}

fn read_set(bytes: &[u8]) -> Option<Set> {
    let threads = read_threads(bytes)?;
    if threads.is_empty() || threads.len() > MAX_THREADS {
        return None;
    }
    if !threads.iter().all(|thread| is_thread(thread)) {
        return None;
    }
    let checkpoints = checkpoints_of(&threads);
    if checkpoints.len() > MAX_CHECKPOINTS {
        return None;
    }
    Some(Set {
        threads,
        checkpoints,
    })
}

/// "Threads, and pcs in each, count up from 0 without gaps."
fn read_threads(bytes: &[u8]) -> Option<Vec<Vec<Statement>>> {
    let records = bytes.chunks_exact(STATEMENT_BYTES);
    if !records.remainder().is_empty() {
        return None;
    }
    let mut threads: Vec<Vec<Statement>> = Vec::new();
    for record in records {
        let thread = usize::from(record[0]);
        if thread == threads.len() {
            threads.push(Vec::new());
        }
        if thread + 1 != threads.len() {
            return None;
        }
        let statements = &mut threads[thread];
        if usize::from(field(record, 6)) != statements.len() {
            return None;
        }
        statements.push(read_statement(record)?);
    }
    Some(threads)
}

fn read_statement(record: &[u8]) -> Option<Statement> {
    let instruction = Instruction::from_number(record[1])?;
    let indirect = match record[2] {
        0 => false,
        1 if instruction.is_memory() => true,
        _ => return None,
    };
    let argument = field(record, 4);
    if record[3] != 0 || (argument != 0 && !instruction.has_argument()) {
        return None;
    }
    Some(Statement {
        instruction,
        indirect,
        argument,
    })
}

/// Its length, its last statement and its jumps are as they must be.
fn is_thread(statements: &[Statement]) -> bool {
    statements.len() <= MAX_STATEMENTS
        && statements
            .last()
            .is_some_and(|last| last.instruction.may_be_last())
        && statements.iter().all(|statement| {
            !statement.instruction.is_jump() || usize::from(statement.argument) < statements.len()
        })
}

/// The set's checkpoints, each once.
pub fn checkpoints_of(threads: &[Vec<Statement>]) -> Vec<Checkpoint> {
    let mut checkpoints: Vec<Checkpoint> = Vec::new();
    for (thread, statements) in threads.iter().enumerate() {
        for statement in statements {
            if statement.instruction != Instruction::Check {
                continue;
            }
            let number = statement.argument;
            match checkpoints.iter_mut().find(|c| c.number == number) {
                Some(checkpoint) if checkpoint.threads.contains(&thread) => {}
                Some(checkpoint) => checkpoint.threads.push(thread),
                None => checkpoints.push(Checkpoint {
                    number,
                    threads: vec![thread],
                }),
            }
        }
    }
    checkpoints
}

/// "Map cell, 4 bytes: address, value; addresses strictly ascend."
fn read_map(bytes: &[u8], limit: usize) -> Option<Vec<Cell>> {
    let records = bytes.chunks_exact(CELL_BYTES);
    if !records.remainder().is_empty() || records.len() > limit {
        return None;
    }
    let cells: Vec<Cell> = records
        .map(|record| Cell {
            address: field(record, 0),
            value: field(record, 2),
        })
        .collect();
    let ascends = cells
        .windows(2)
        .all(|pair| pair[0].address < pair[1].address);
    ascends.then_some(cells)
}

/// The records of these threads, accepted or not.
pub fn set_bytes(threads: &[Vec<Statement>]) -> Vec<u8> {
    let statements: usize = threads.iter().map(Vec::len).sum();
    let mut bytes = Vec::with_capacity(statements * STATEMENT_BYTES);
    for (thread, statements) in threads.iter().enumerate() {
        for (pc, statement) in statements.iter().enumerate() {
            bytes.extend_from_slice(&[
                thread as u8,
                statement.instruction.number(),
                u8::from(statement.indirect),
                0,
            ]);
            bytes.extend_from_slice(&statement.argument.to_le_bytes());
            bytes.extend_from_slice(&(pc as u16).to_le_bytes());
        }
    }
    bytes
}

/// The records of these cells, in the given order.
pub fn map_bytes(cells: &[Cell]) -> Vec<u8> {
    let mut bytes = Vec::with_capacity(cells.len() * CELL_BYTES);
    for cell in cells {
        bytes.extend_from_slice(&cell.address.to_le_bytes());
        bytes.extend_from_slice(&cell.value.to_le_bytes());
    }
    bytes
}

#[cfg(test)]
mod tests {
    use super::*;
    use Instruction::*;

    fn accepted(threads: &[Vec<Statement>]) -> bool {
        let answer = accept_set(&set_bytes(threads));
        if let Ok(set) = &answer {
            assert_eq!(set.threads, threads);
        }
        answer.is_ok()
    }

    fn adding(statements: usize) -> Vec<Statement> {
        let mut thread = vec![Statement::new(Addi, 1); statements - 1];
        thread.push(Statement::new(Halt, 0));
        thread
    }

    // Sample 9.
    #[test]
    fn statements_from_1_to_32() {
        assert!(accepted(&[adding(1)]));
        assert!(accepted(&[adding(32)]));
        assert!(!accepted(&[adding(33)]));
        assert!(!accepted(&[adding(32), adding(33)]));
    }

    #[test]
    fn threads_from_1_to_4() {
        assert!(!accepted(&[]));
        for count in 1..=4 {
            assert!(accepted(&vec![adding(2); count]));
        }
        assert!(!accepted(&vec![adding(2); 5]));
    }

    #[test]
    fn last_statement_is_exit_jmp_or_halt() {
        for instruction in Instruction::ALL {
            let thread = vec![Statement::new(instruction, 0)];
            assert_eq!(
                accepted(&[thread]),
                [Exit, Jmp, Halt].contains(&instruction)
            );
        }
    }

    #[test]
    fn jumps_stay_in_their_thread() {
        for instruction in [Jmp, Jz, Jnz, Js, Jns, Jnzns] {
            let with_target =
                |target| vec![Statement::new(instruction, target), Statement::new(Halt, 0)];
            assert!(accepted(&[with_target(0)]));
            assert!(accepted(&[with_target(1)]));
            assert!(!accepted(&[with_target(2), adding(8)]));
        }
    }

    #[test]
    fn only_memory_words_are_indirect() {
        for instruction in Instruction::ALL {
            let thread = vec![Statement::indirect(instruction, 0), Statement::new(Halt, 0)];
            assert_eq!(
                accepted(&[thread]),
                [Load, Store, Add, Sub, Mul, Mem, Cas].contains(&instruction)
            );
        }
    }

    #[test]
    fn fence_and_halt_have_argument_0() {
        for instruction in [Fence, Halt] {
            let thread = vec![Statement::new(instruction, 1), Statement::new(Halt, 0)];
            assert!(!accepted(&[thread]));
        }
    }

    #[test]
    fn at_most_8_different_checkpoints() {
        let checks = |from: u16, to: u16| {
            let mut thread: Vec<Statement> = (from..to)
                .map(|number| Statement::new(Check, number))
                .collect();
            thread.push(Statement::new(Halt, 0));
            thread
        };
        assert!(accepted(&[checks(0, 8)]));
        assert!(accepted(&[checks(0, 8), checks(0, 8), checks(3, 5)]));
        assert!(!accepted(&[checks(0, 9)]));
        assert!(!accepted(&[checks(0, 5), checks(4, 9)]));
    }

    #[test]
    fn checkpoints_know_their_threads_once() {
        let check = Statement::new(Check, 7);
        let halt = Statement::new(Halt, 0);
        let set = accept_set(&set_bytes(&[
            vec![check, check, halt],
            vec![halt],
            vec![halt, check, halt],
        ]));
        assert_eq!(
            set.unwrap().checkpoints,
            [Checkpoint {
                number: 7,
                threads: vec![0, 2]
            }]
        );
    }

    #[test]
    fn records_are_whole_and_in_order() {
        let bytes = set_bytes(&[adding(2), adding(2)]);
        for length in 0..bytes.len() {
            // Only the whole of thread 0 is a set too: a thread cannot end in ADDI.
            assert_eq!(accept_set(&bytes[..length]).is_ok(), length == 16);
        }
        let mut swapped = bytes[16..].to_vec();
        swapped.extend_from_slice(&bytes[..16]);
        assert_eq!(accept_set(&swapped), Err(Refusal::RECORDS));
        for at in [0, 3, 6, 7, 14] {
            let mut changed = bytes.clone();
            changed[at] ^= 1;
            assert_eq!(accept_set(&changed), Err(Refusal::RECORDS));
        }
    }

    #[test]
    fn map_addresses_ascend_within_the_limit() {
        let cells = |count: u16| -> Vec<Cell> {
            (0..count)
                .map(|address| Cell { address, value: 3 })
                .collect()
        };
        for (count, limit, fits) in [
            (0, 128, true),
            (128, 128, true),
            (129, 128, false),
            (256, 256, true),
            (257, 256, false),
        ] {
            let bytes = map_bytes(&cells(count));
            assert_eq!(accept_map(&bytes, limit).is_ok(), fits);
        }
        assert_eq!(accept_map(&[0; 3], 256), Err(Refusal::RECORDS));
        assert_eq!(accept_map(&[0; 8], 256), Err(Refusal::RECORDS));
        let falling = map_bytes(&[cells(2)[1], cells(2)[0]]);
        assert_eq!(accept_map(&falling, 256), Err(Refusal::RECORDS));
    }
}
