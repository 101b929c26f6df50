//! Which tables are well formed, by document 01's rules alone: each record's fields, sorts and
//! operands, and the order of the parts.

use crate::formula::{operation::*, sort, Formula};
use std::ops::Range;

/// What is wrong, and where.
#[derive(Clone, Debug, PartialEq, Eq)]
pub struct Fault {
    pub record: usize,
    pub what: &'static str,
}

/// Where the parts stand.
#[derive(Clone, Debug, PartialEq, Eq)]
pub struct Parts {
    /// Start values and map constraints.
    pub start: Range<usize>,
    pub steps: Vec<Range<usize>>,
    pub goal: usize,
}

/// Checks the table of a set of so many threads and map cells for a bound, and gives its parts.
pub fn well_formed(
    table: &[Formula],
    threads: usize,
    cells: usize,
    bound: usize,
) -> Result<Parts, Fault> {
    for record in 0..table.len() {
        is_formed(table, record).map_err(|what| Fault { record, what })?;
    }
    let first_memories = table.iter().filter(|f| f.operation == FIRST).count();
    if first_memories > 1 {
        return Err(fault(table.len(), "first memory stands at most once"));
    }
    parts(table, threads, cells, bound)
}

fn fault(record: usize, what: &'static str) -> Fault {
    Fault { record, what }
}

// ---- one record

/// The sorts of an operation's operands and its own.
struct Rule {
    operands: Vec<u8>,
    own: u8,
}

fn is_formed(table: &[Formula], record: usize) -> Result<(), &'static str> {
    let formula = &table[record];
    let earlier = |operand: u32| table[..record].get(operand as usize).map(|f| f.sort);
    let operands = [formula.a, formula.b, formula.c];
    if formula.operation == CHOICE {
        return match (formula.sort, formula.constant, formula.b) {
            (sort::BIT, 0, 0 | 1) => Ok(()),
            _ => Err("fields of a choice bit"),
        };
    }
    let rule =
        rule(formula, earlier(formula.a)).ok_or("operation, or sort of the first operand")?;
    if formula.sort != rule.own {
        return Err("own sort");
    }
    if formula.operation == CONSTANT {
        if formula.sort == sort::BIT && formula.constant > 1 {
            return Err("constant of a bit");
        }
    } else if formula.constant != 0 {
        return Err("unused constant");
    }
    for (at, &operand) in operands.iter().enumerate() {
        match rule.operands.get(at) {
            None if operand != 0 => return Err("unused operand"),
            None => {}
            Some(&sort) if earlier(operand) == Some(sort) => {}
            Some(_) => return Err("operand that is no earlier record of a fitting sort"),
        }
    }
    Ok(())
}

/// "4 to 6, 15, 16 bits; 7 two bits or two words; 8 a bit and two of one sort; 9 to 11 and 14 words;
/// 12 a memory and a word; 13 a memory and two words." "The record's own sort: 1, 4 to 7 and 14 bit;
/// 9 to 12 word; 2 and 13 memory; 3 bit or word; 8 that of b; 15 and 16 none."
fn rule(formula: &Formula, first: Option<u8>) -> Option<Rule> {
    use sort::{BIT, MEMORY, NONE, WORD};
    let (operands, own) = match formula.operation {
        FIRST => (vec![], MEMORY),
        CONSTANT if matches!(formula.sort, BIT | WORD) => (vec![], formula.sort),
        NOT => (vec![BIT], BIT),
        AND | OR => (vec![BIT, BIT], BIT),
        EQUAL => match first {
            Some(sort @ (BIT | WORD)) => (vec![sort, sort], BIT),
            _ => return None,
        },
        IF if matches!(formula.sort, BIT | WORD | MEMORY) => {
            (vec![BIT, formula.sort, formula.sort], formula.sort)
        }
        PLUS | MINUS | TIMES => (vec![WORD, WORD], WORD),
        READ => (vec![MEMORY, WORD], WORD),
        WRITE => (vec![MEMORY, WORD, WORD], MEMORY),
        TOP => (vec![WORD], BIT),
        CONSTRAINT | GOAL => (vec![BIT], NONE),
        _ => return None,
    };
    Some(Rule { operands, own })
}

// ---- the order of parts

/// "Start values, map constraints, then for each step from 0 to K - 1 all 2T choice bits (executes by
/// thread, then flushes by thread), constraints (at least one) and next values; one goal last."
fn parts(table: &[Formula], threads: usize, cells: usize, bound: usize) -> Result<Parts, Fault> {
    let goal = table
        .len()
        .checked_sub(1)
        .ok_or(fault(0, "one goal last"))?;
    if let Some(early) = table.iter().position(|f| f.operation == GOAL) {
        if early != goal {
            return Err(fault(early, "one goal last"));
        }
    } else {
        return Err(fault(goal, "one goal last"));
    }
    let start = 0..row_from(table, 0);
    if cells > 0 && !has_constraint(&table[start.clone()]) {
        return Err(fault(start.end, "map constraints"));
    }
    let mut steps = Vec::with_capacity(bound);
    let mut from = start.end;
    for step in 0..bound {
        let after_row = is_row(table, from, step, threads)?;
        let end = row_from(table, after_row).min(goal);
        if !has_constraint(&table[after_row..end]) {
            return Err(fault(end, "at least one constraint in a step"));
        }
        steps.push(from..end);
        from = end;
    }
    if from != goal {
        return Err(fault(from, "no choice bits beyond the bound"));
    }
    Ok(Parts { start, steps, goal })
}

/// The first choice bit from a record on, or the table's end.
fn row_from(table: &[Formula], from: usize) -> usize {
    let row = table[from..].iter().position(|f| f.operation == CHOICE);
    row.map_or(table.len(), |at| from + at)
}

fn has_constraint(part: &[Formula]) -> bool {
    part.iter().any(|f| f.operation == CONSTRAINT)
}

/// All 2T choice bits of a step stand here in one row. Gives what follows them.
fn is_row(table: &[Formula], from: usize, step: usize, threads: usize) -> Result<usize, Fault> {
    for at in 0..2 * threads {
        let record = from + at;
        let expected = [step, at / threads, at % threads].map(|number| number as u32);
        match table.get(record) {
            Some(f) if f.operation == CHOICE && [f.a, f.b, f.c] == expected => {}
            _ => return Err(fault(record, "a row of all choice bits")),
        }
    }
    Ok(from + 2 * threads)
}

#[cfg(test)]
mod tests {
    use super::*;

    fn record(operation: u8, sort: u8, [a, b, c]: [u32; 3]) -> Formula {
        Formula {
            operation,
            sort,
            constant: 0,
            a,
            b,
            c,
        }
    }

    /// One thread, one map cell, K 2; each step has a row of two bits and a constraint.
    fn small() -> Vec<Formula> {
        vec![
            record(FIRST, sort::MEMORY, [0; 3]),
            record(CONSTANT, sort::WORD, [0; 3]),
            record(READ, sort::WORD, [0, 1, 0]),
            record(EQUAL, sort::BIT, [2, 1, 0]),
            record(CONSTRAINT, sort::NONE, [3, 0, 0]),
            record(CHOICE, sort::BIT, [0, 0, 0]),
            record(CHOICE, sort::BIT, [0, 1, 0]),
            record(CONSTRAINT, sort::NONE, [5, 0, 0]),
            record(WRITE, sort::MEMORY, [0, 1, 2]),
            record(CHOICE, sort::BIT, [1, 0, 0]),
            record(CHOICE, sort::BIT, [1, 1, 0]),
            record(OR, sort::BIT, [9, 10, 0]),
            record(CONSTRAINT, sort::NONE, [11, 0, 0]),
            record(IF, sort::MEMORY, [9, 8, 0]),
            record(NOT, sort::BIT, [5, 0, 0]),
            record(GOAL, sort::NONE, [14, 0, 0]),
        ]
    }

    #[test]
    fn parts_of_a_small_table() {
        let parts = well_formed(&small(), 1, 1, 2).expect("well formed");
        assert_eq!(parts.start, 0..5);
        assert_eq!(parts.steps, [5..9, 9..15]);
        assert_eq!(parts.goal, 15);
    }

    #[test]
    fn each_rule_refuses() {
        type Change = fn(&mut [Formula]);
        let operand = "operand that is no earlier record of a fitting sort";
        let operation = "operation, or sort of the first operand";
        let changes: Vec<(Change, usize, &'static str)> = vec![
            (|t| t[3].operation = 17, 3, operation),
            (|t| t[3].operation = 0, 3, operation),
            (|t| t[3].a = 0, 3, operation),
            (|t| t[3].sort = sort::WORD, 3, "own sort"),
            (|t| t[13].sort = sort::BIT, 13, operand),
            (|t| t[13].c = 1, 13, operand),
            (|t| t[11].b = 11, 11, operand),
            (|t| t[11].b = 12, 11, operand),
            (|t| t[8].b = 3, 8, operand),
            (|t| t[14].b = 1, 14, "unused operand"),
            (|t| t[0].a = 1, 0, "unused operand"),
            (|t| t[14].constant = 1, 14, "unused constant"),
            (|t| t[5].constant = 1, 5, "fields of a choice bit"),
            (|t| t[6].b = 2, 6, "fields of a choice bit"),
            (
                |t| (t[1].sort, t[1].constant) = (sort::BIT, 2),
                1,
                "constant of a bit",
            ),
            (|t| t[13] = t[0], 16, "first memory stands at most once"),
            (|t| t[12].operation = GOAL, 12, "one goal last"),
            (|t| t[15].operation = CONSTRAINT, 15, "one goal last"),
            (|t| t[4] = t[1], 5, "map constraints"),
            (|t| t[12] = t[1], 15, "at least one constraint in a step"),
            (|t| t[9].c = 1, 9, "a row of all choice bits"),
            (|t| t.swap(5, 6), 5, "a row of all choice bits"),
            (|t| t[10] = t[3], 10, "a row of all choice bits"),
            (|t| t[13] = t[10], 13, "no choice bits beyond the bound"),
        ];
        for (change, record, what) in changes {
            let mut table = small();
            change(&mut table);
            assert_eq!(well_formed(&table, 1, 1, 2), Err(fault(record, what)));
        }
    }
}
