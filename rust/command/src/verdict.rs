//! A solver's verdict on a table, from what it printed.

use reference::script::values;
use reference::{Cell, Choice, Model};

#[derive(Debug, PartialEq, Eq)]
pub enum Verdict {
    /// The run, and a first memory with all cells that it reads.
    Satisfiable(Vec<Choice>, Vec<Cell>),
    Unsatisfiable,
    /// What came instead, on one line.
    Other(String),
}

/// From what the solver printed.
pub fn verdict(printed: &str, threads: usize, bound: usize) -> Verdict {
    let (first, rest) = printed.split_once('\n').unwrap_or((printed, ""));
    match first.trim() {
        "unsat" => Verdict::Unsatisfiable,
        "sat" => satisfiable(rest, threads, bound)
            .unwrap_or_else(|| Verdict::Other("sat, but not all values".to_string())),
        other => Verdict::Other(other.to_string()),
    }
}

fn satisfiable(printed: &str, threads: usize, bound: usize) -> Option<Verdict> {
    let values = values(printed)?;
    if values.bits.len() != 2 * threads * bound {
        return None;
    }
    let model = Model {
        threads,
        bits: values.bits,
        cells: Vec::new(),
    };
    Some(Verdict::Satisfiable(model.run(), values.cells))
}
