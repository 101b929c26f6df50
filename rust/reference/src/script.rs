//! A formula table as an SMT-LIB script, and the values in a solver's answer to it.

use crate::formula::{operation::*, sort, Formula};
use crate::Cell;
use std::collections::BTreeMap;
use std::fmt::Write;

// ---- the script

/// A symbol for each record with an asserted equation: a definition for each is far slower.
pub fn script(table: &[Formula]) -> String {
    let mut script = String::from("(set-logic QF_ABV)\n");
    for (index, formula) in table.iter().enumerate() {
        record(&mut script, index, formula);
    }
    script += "(check-sat)\n";
    values_asked(&mut script, table);
    script
}

fn record(script: &mut String, index: usize, formula: &Formula) {
    let sort = match formula.sort {
        sort::BIT => "Bool",
        sort::WORD => "(_ BitVec 16)",
        sort::MEMORY => "(Array (_ BitVec 16) (_ BitVec 16))",
        // Constraints and the goal.
        _ => {
            let _ = writeln!(script, "(assert r{})", formula.a);
            return;
        }
    };
    let _ = writeln!(script, "(declare-const r{index} {sort})");
    if let Some(term) = term(formula) {
        let _ = writeln!(script, "(assert (= r{index} {term}))");
    }
}

/// None for what an assignment gives.
fn term(formula: &Formula) -> Option<String> {
    let Formula { a, b, c, .. } = formula;
    Some(match formula.operation {
        CONSTANT if formula.sort == sort::BIT => (formula.constant == 1).to_string(),
        CONSTANT => format!("#x{:04x}", formula.constant),
        NOT => format!("(not r{a})"),
        AND => format!("(and r{a} r{b})"),
        OR => format!("(or r{a} r{b})"),
        EQUAL => format!("(= r{a} r{b})"),
        IF => format!("(ite r{a} r{b} r{c})"),
        PLUS => format!("(bvadd r{a} r{b})"),
        MINUS => format!("(bvsub r{a} r{b})"),
        TIMES => format!("(bvmul r{a} r{b})"),
        READ => format!("(select r{a} r{b})"),
        WRITE => format!("(store r{a} r{b} r{c})"),
        TOP => format!("(= ((_ extract 15 15) r{a}) #b1)"),
        // Choice bits and first memory.
        _ => return None,
    })
}

/// The choice bits, then the address of each read with the first cell there: other cells decide
/// nothing.
fn values_asked(script: &mut String, table: &[Formula]) {
    let with = |operation| {
        let all = table.iter().enumerate();
        all.filter(move |(_, formula)| formula.operation == operation)
    };
    *script += "(get-value (";
    for (index, _) in with(CHOICE) {
        let _ = write!(script, " r{index}");
    }
    *script += "))\n(get-value (";
    for (first, _) in with(FIRST) {
        for (_, Formula { b, .. }) in with(READ) {
            let _ = write!(script, " r{b} (select r{first} r{b})");
        }
    }
    *script += "))\n";
}

// ---- the values

/// What a solver says of what the script asks.
pub struct Values {
    /// By step, executes before flushes, as in a model: in a table choice bits stand so.
    pub bits: Vec<bool>,
    /// The first cells at the addresses of all reads, by address.
    pub cells: Vec<Cell>,
}

/// From what is printed after `sat`. None where it is not as it must be.
pub fn values(printed: &str) -> Option<Values> {
    let words = || printed.split(|c: char| c.is_whitespace() || "()".contains(c));
    let bits = words().filter_map(|word| word.parse().ok()).collect();
    let hexadecimal = words().filter_map(|word| word.strip_prefix("#x"));
    let numbers: Result<Vec<u16>, _> = hexadecimal.map(|d| u16::from_str_radix(d, 16)).collect();
    let numbers = numbers.ok()?;
    if numbers.len() % 2 != 0 {
        return None;
    }
    // Reads of the same cell stand here more than once.
    let cells: BTreeMap<u16, u16> = numbers.chunks_exact(2).map(|p| (p[0], p[1])).collect();
    let cell = |(address, value)| Cell { address, value };
    let cells = cells.into_iter().map(cell).collect();
    Some(Values { bits, cells })
}
