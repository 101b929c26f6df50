//! The second reader: a set text to its statement records and map records.

use crate::lines::{is_dot_line, map_line, statement_line, Argument, Fault, Written};
use crate::records::{
    checkpoints_of, map_bytes, set_bytes, MAX_CHECKPOINTS, MAX_SET_MAP, MAX_STATEMENTS, MAX_THREADS,
};
use crate::{Cell, Instruction, Refusal, Statement};

/// Bytes of a text.
pub const MAX_TEXT: usize = 16_384;

/// What an accepted text says: its statement records, the gained HALTs among them, and its map
/// records.
#[derive(Clone, Debug, PartialEq, Eq)]
pub struct Read {
    pub set: Vec<u8>,
    pub map: Vec<u8>,
}

/// Reads a text for outputs of `set_room` and `map_room` bytes.
/// "Texts: 1, then lines in order (2 before 3 in a line), then 4 to 8, then 11."
pub fn read(text: &[u8], set_room: usize, map_room: usize) -> Result<Read, Refusal> {
    if text.len() > MAX_TEXT {
        return Err(Refusal::TEXT);
    }
    let Sections { mut threads, cells } = sections(text)?;
    if threads.is_empty() || threads.len() > MAX_THREADS {
        return Err(Refusal::THREADS);
    }
    threads.iter_mut().for_each(gain_halt);
    let fits = |thread: &Thread| (1..=MAX_STATEMENTS).contains(&thread.len());
    if !threads.iter().all(fits) {
        return Err(Refusal::STATEMENTS);
    }
    let resolved: Option<Vec<_>> = threads.iter().map(|thread| resolve(thread)).collect();
    let threads = resolved.ok_or(Refusal::LABELS)?;
    if checkpoints_of(&threads).len() > MAX_CHECKPOINTS {
        return Err(Refusal::CHECKPOINTS);
    }
    let cells = ascending(cells).ok_or(Refusal::MAP)?;
    let read = Read {
        set: set_bytes(&threads),
        map: map_bytes(&cells),
    };
    if read.set.len() > set_room || read.map.len() > map_room {
        return Err(Refusal::ROOM);
    }
    Ok(read)
}

/// A thread's statements as they are written.
type Thread<'a> = Vec<Written<'a>>;

/// The sections of a text whose lines all have their form.
struct Sections<'a> {
    threads: Vec<Thread<'a>>,
    cells: Vec<Cell>,
}

/// "Each section is a thread; what follows the last dot is the map; a text without a dot is all
/// map." So the last dot is looked for first.
fn sections(text: &[u8]) -> Result<Sections<'_>, Refusal> {
    let lines: Vec<&[u8]> = text.split(|&byte| byte == b'\n').collect();
    let last_dot = lines.iter().rposition(|line| is_dot_line(line));
    let mut threads = Vec::new();
    let mut thread = Vec::new();
    let mut cells = Vec::new();
    for (index, line) in lines.into_iter().enumerate() {
        let in_line = |fault| refusal(fault, index + 1);
        if last_dot.is_none_or(|dot| dot < index) {
            cells.extend(map_line(line).map_err(in_line)?);
        } else if is_dot_line(line) {
            threads.push(std::mem::take(&mut thread));
        } else {
            thread.extend(statement_line(line).map_err(in_line)?);
        }
    }
    Ok(Sections { threads, cells })
}

/// A text has at most 16,385 lines.
fn refusal(fault: Fault, line: usize) -> Refusal {
    match fault {
        Fault::Malformed => Refusal::malformed(line as u32),
        Fault::NumberAbove => Refusal::number_above(line as u32),
    }
}

/// "A thread whose last statement is not EXIT, JMP or HALT gains a HALT"; "an empty one gains no
/// HALT."
fn gain_halt(thread: &mut Thread) {
    if thread
        .last()
        .is_some_and(|last| !last.instruction.may_be_last())
    {
        thread.push(Written {
            label: None,
            instruction: Instruction::Halt,
            indirect: false,
            argument: Argument::Number(0),
        });
    }
}

/// "Labels become pcs." Nothing where 6 refuses: "label doubled in a thread, unknown, or target
/// beyond the last statement."
fn resolve(thread: &[Written]) -> Option<Vec<Statement>> {
    // A thread has at most 32 statements here, so that a label may be looked for among them all.
    let pc_of = |label: &[u8]| thread.iter().position(|other| other.label == Some(label));
    let resolve_one = |(pc, statement): (usize, &Written)| {
        let doubled = |label| pc_of(label) != Some(pc);
        if statement.label.is_some_and(doubled) {
            return None;
        }
        let argument = match statement.argument {
            Argument::Number(number) => number,
            Argument::Label(label) => pc_of(label)? as u16,
        };
        if statement.instruction.is_jump() && usize::from(argument) >= thread.len() {
            return None;
        }
        Some(Statement {
            instruction: statement.instruction,
            indirect: statement.indirect,
            argument,
        })
    };
    thread.iter().enumerate().map(resolve_one).collect()
}

/// The cells by ascending address. Nothing where 8 refuses: "map address doubled, or above 128
/// cells in a text."
fn ascending(mut cells: Vec<Cell>) -> Option<Vec<Cell>> {
    if cells.len() > MAX_SET_MAP {
        return None;
    }
    cells.sort_unstable_by_key(|cell| cell.address);
    let doubled = cells
        .windows(2)
        .any(|pair| pair[0].address == pair[1].address);
    (!doubled).then_some(cells)
}

#[cfg(test)]
mod tests {
    use super::*;
    use crate::examples;
    use crate::records::{CELL_BYTES, STATEMENT_BYTES};
    use crate::{accept_map, accept_set};
    use Instruction::*;

    fn read_all(text: &str) -> Read {
        read(text.as_bytes(), usize::MAX, usize::MAX).unwrap()
    }

    #[test]
    fn examples_of_every_rule() {
        for example in examples::all() {
            let answer = read(&example.text, usize::MAX, usize::MAX);
            let counts = answer.map(|read| {
                (
                    read.set.len() / STATEMENT_BYTES,
                    read.map.len() / CELL_BYTES,
                )
            });
            let text = String::from_utf8_lossy(&example.text);
            assert_eq!(counts, example.answer, "{}: {text:?}", example.rule);
        }
    }

    #[test]
    fn the_records_say_what_the_text_says() {
        let text = "a: LOAD [ 7 ]\n JNZ end # jump\n\n JZ 001\nend:JS a\n.\n\
                    end : EXIT 65535\n \t.\nCAS 3\nMEM [0]\nJNZNS 2\n.\n9 1\n0 65535\n10 2";
        let threads = [
            vec![
                Statement::indirect(Load, 7),
                Statement::new(Jnz, 3),
                Statement::new(Jz, 1),
                Statement::new(Js, 0),
                Statement::new(Halt, 0),
            ],
            vec![Statement::new(Exit, 65_535)],
            vec![
                Statement::new(Cas, 3),
                Statement::indirect(Mem, 0),
                Statement::new(Jnzns, 2),
                Statement::new(Halt, 0),
            ],
        ];
        let cells = [(0, 65_535), (9, 1), (10, 2)].map(|(address, value)| Cell { address, value });
        let read = read_all(text);
        assert_eq!(read.set, set_bytes(&threads));
        assert_eq!(read.map, map_bytes(&cells));
    }

    #[test]
    fn accepted_texts_give_accepted_records() {
        for example in examples::all() {
            if let Ok(read) = read(&example.text, usize::MAX, usize::MAX) {
                assert!(accept_set(&read.set).is_ok());
                assert!(accept_map(&read.map, MAX_SET_MAP).is_ok());
            }
        }
    }

    #[test]
    fn each_output_asks_its_exact_bytes() {
        let text = b"FENCE\n.\n1 2\n3 4\n5 6\n";
        assert!(read(text, 16, 12).is_ok());
        assert_eq!(read(text, 15, 12), Err(Refusal::ROOM));
        assert_eq!(read(text, 16, 11), Err(Refusal::ROOM));
        assert_eq!(read(text, 15, 11), Err(Refusal::ROOM));
        // 11 comes last.
        assert_eq!(read(b"HALT\n.\n1 2\n1 2", 0, 0), Err(Refusal::MAP));
        assert!(read(b"HALT\n.\n", 8, 0).is_ok());
    }
}
