//! The words of the picture: what stands in a row beside the registers.

use super::buffers::{missed, Waiting};
use super::effects::{Effect, Loaded, Stored};
use reference::trace::Step;
use reference::{Cell, Instruction};

pub const FORWARDED: &str = "forwarded";
pub const OLD: &str = "(old)";
pub const NOT_FLUSHED: &str = "not flushed";
pub const NO_STEP: &str = "no trace step";

/// As the listing prints it, without the dash for no argument.
pub fn statement(step: &Step) -> String {
    match step.statement {
        Some(statement) => statement.to_string(),
        None => step.word().to_string(),
    }
}

pub fn store(store: Stored) -> String {
    format!("{} := {}", number(store.address), store.value)
}

fn number(known: Option<u16>) -> String {
    known.map_or("?".to_string(), |known| known.to_string())
}

/// Which word came from the thread's own buffer.
pub fn forwarded(effect: &Effect) -> Option<String> {
    let is_forwarded = |loaded: Option<Loaded>| loaded.is_some_and(|loaded| loaded.forwarded);
    let words = [effect.address_word, effect.data_word].map(is_forwarded);
    match words {
        [false, false] => None,
        [true, false] => Some(format!("address {FORWARDED}")),
        [false, true] => Some(FORWARDED.to_string()),
        [true, true] => Some(format!("both {FORWARDED}")),
    }
}

/// The cells that the step read from memory.
pub fn reads(effect: &Effect) -> impl Iterator<Item = Loaded> {
    let words = [effect.address_word, effect.data_word];
    // Of a CAS that matched the write is shown.
    let shown = move |loaded: &Loaded| !loaded.forwarded;
    let data = if effect.matched == Some(true) { 1 } else { 2 };
    words.into_iter().take(data).flatten().filter(shown)
}

/// What stands in the lane of memory.
pub fn memory(step: &Step, effect: &Effect, at: usize, waiting: &[Waiting]) -> String {
    let read = |loaded: Loaded| {
        let mut part = format!("cell {}", number(loaded.address));
        if let Some(word) = loaded.word {
            part += &format!(" = {word}");
        }
        let mut missed = missed(waiting, at, step.thread, loaded.address);
        if missed.next().is_some() {
            part += &format!(" {OLD}");
        }
        part
    };
    let mut parts: Vec<String> = reads(effect).map(read).collect();
    if effect.matched == Some(false) {
        parts.push("no match".to_string());
    }
    if let Some(Cell { address, value }) = effect.written {
        parts.push(format!("cell {address} := {value}"));
    }
    if let Some(code) = exit_code(step) {
        parts.push(format!("exits with {code}"));
    }
    parts.join(", ")
}

pub fn exit_code(step: &Step) -> Option<u16> {
    let exit = |statement: &reference::Statement| statement.instruction == Instruction::Exit;
    let statement = step.statement.filter(exit)?;
    Some(statement.argument)
}
