//! A plain evaluator of formula tables, written from document 01's list of operations alone: the
//! records' values front to back under an assignment.

use crate::formula::{operation::*, sort, Formula};

/// "An assignment gives each choice bit and all 65,536 first cells a value."
#[derive(Clone, Debug)]
pub struct Assignment {
    pub threads: usize,
    /// 2T for each step: executes by thread, then flushes by thread.
    pub bits: Vec<bool>,
    /// By address.
    pub first: Vec<u16>,
}

impl Assignment {
    /// `kind` is 0 to execute or 1 to flush.
    pub fn bit(&self, step: u32, kind: u32, thread: u32) -> bool {
        let row = step as usize * 2 * self.threads;
        self.bits[row + kind as usize * self.threads + thread as usize]
    }
}

#[derive(Clone, Copy)]
enum Value {
    Bit(bool),
    Word(u16),
    /// A memory is what its record says of the memories before it.
    Memory,
    None,
}

/// The index of the first constraint or goal that is 0; none if the assignment satisfies. The table
/// must be well formed.
pub fn first_false(table: &[Formula], assignment: &Assignment) -> Option<usize> {
    let mut evaluation = Evaluation::new(table, assignment);
    for (index, formula) in table.iter().enumerate() {
        if formula.is_demand() && !evaluation.bit(formula.a) {
            return Some(index);
        }
        evaluation.push(formula);
    }
    None
}

/// The values of a table's records under an assignment.
pub struct Evaluation<'a> {
    table: &'a [Formula],
    assignment: &'a Assignment,
    values: Vec<Value>,
}

impl<'a> Evaluation<'a> {
    fn new(table: &'a [Formula], assignment: &'a Assignment) -> Evaluation<'a> {
        Evaluation {
            table,
            assignment,
            values: Vec::with_capacity(table.len()),
        }
    }

    /// All values. The table must be well formed.
    pub fn whole(table: &'a [Formula], assignment: &'a Assignment) -> Evaluation<'a> {
        let mut evaluation = Evaluation::new(table, assignment);
        for formula in table {
            evaluation.push(formula);
        }
        evaluation
    }

    fn push(&mut self, formula: &Formula) {
        let value = self.value(formula);
        self.values.push(value);
    }

    /// The cell that a read record gives, and the memories that it is looked up in, in their order.
    pub fn look_up(&self, read: usize) -> (u16, Vec<u32>) {
        let Formula { a, b, .. } = self.table[read];
        let mut visited = Vec::new();
        let cell = self.cell(a, self.word(b), |memory| visited.push(memory));
        (cell, visited)
    }

    fn bit(&self, index: u32) -> bool {
        match self.values[index as usize] {
            Value::Bit(bit) => bit,
            _ => panic!("record {index} is no bit"),
        }
    }

    /// The value of a record that has a word.
    pub fn word(&self, index: u32) -> u16 {
        match self.values[index as usize] {
            Value::Word(word) => word,
            _ => panic!("record {index} is no word"),
        }
    }

    fn value(&self, formula: &Formula) -> Value {
        let Formula { a, b, c, .. } = *formula;
        match formula.operation {
            CHOICE => Value::Bit(self.assignment.bit(a, b, c)),
            CONSTANT if formula.sort == sort::BIT => Value::Bit(formula.constant == 1),
            CONSTANT => Value::Word(formula.constant),
            NOT => Value::Bit(!self.bit(a)),
            AND => Value::Bit(self.bit(a) && self.bit(b)),
            OR => Value::Bit(self.bit(a) || self.bit(b)),
            EQUAL => Value::Bit(self.equal(a, b)),
            IF if formula.sort == sort::MEMORY => Value::Memory,
            IF => self.values[if self.bit(a) { b } else { c } as usize],
            PLUS => Value::Word(self.word(a).wrapping_add(self.word(b))),
            MINUS => Value::Word(self.word(a).wrapping_sub(self.word(b))),
            TIMES => Value::Word(self.word(a).wrapping_mul(self.word(b))),
            READ => Value::Word(self.cell(a, self.word(b), |_| {})),
            FIRST | WRITE => Value::Memory,
            TOP => Value::Bit(self.word(a) >> 15 == 1),
            _ => Value::None,
        }
    }

    /// "Two bits or two words."
    fn equal(&self, a: u32, b: u32) -> bool {
        match (self.values[a as usize], self.values[b as usize]) {
            (Value::Bit(one), Value::Bit(other)) => one == other,
            (Value::Word(one), Value::Word(other)) => one == other,
            _ => panic!("records {a} and {b} are not two bits or two words"),
        }
    }

    /// What stands at the address in a memory: goes back over the records that it was made by, and shows each.
    fn cell(&self, mut memory: u32, address: u16, mut visit: impl FnMut(u32)) -> u16 {
        loop {
            visit(memory);
            let formula = &self.table[memory as usize];
            memory = match formula.operation {
                FIRST => return self.assignment.first[usize::from(address)],
                WRITE if self.word(formula.b) == address => return self.word(formula.c),
                WRITE => formula.a,
                IF if self.bit(formula.a) => formula.b,
                IF => formula.c,
                _ => panic!("record {memory} is no memory"),
            };
        }
    }
}

#[cfg(test)]
mod tests {
    use super::*;

    fn record(operation: u8, sort: u8, constant: u16, [a, b, c]: [u32; 3]) -> Formula {
        Formula {
            operation,
            sort,
            constant,
            a,
            b,
            c,
        }
    }

    /// Two words, an operation on them, and the constraint that the result is a third word.
    fn gives(operation: u8, a: u16, b: u16, result: u16) -> bool {
        let table = [
            record(CONSTANT, sort::WORD, a, [0; 3]),
            record(CONSTANT, sort::WORD, b, [0; 3]),
            record(operation, sort::WORD, 0, [0, 1, 0]),
            record(CONSTANT, sort::WORD, result, [0; 3]),
            record(EQUAL, sort::BIT, 0, [2, 3, 0]),
            record(CONSTRAINT, sort::NONE, 0, [4, 0, 0]),
        ];
        let assignment = Assignment {
            threads: 1,
            bits: vec![],
            first: vec![],
        };
        first_false(&table, &assignment).is_none()
    }

    // Sample 6.
    #[test]
    fn the_low_16_bits() {
        assert!(gives(PLUS, 65_535, 1, 0));
        assert!(gives(MINUS, 0, 1, 65_535));
        assert!(gives(TIMES, 300, 300, 24_464));
        assert!(!gives(TIMES, 300, 300, 24_465));
    }

    #[test]
    fn memories_through_writes_and_ifs() {
        let mut first = vec![0; 65_536];
        first[7] = 70;
        first[8] = 80;
        for taken in [false, true] {
            let table = [
                record(CHOICE, sort::BIT, 0, [0, 1, 0]),
                record(FIRST, sort::MEMORY, 0, [0; 3]),
                record(CONSTANT, sort::WORD, 7, [0; 3]),
                record(CONSTANT, sort::WORD, 80, [0; 3]),
                record(WRITE, sort::MEMORY, 0, [1, 2, 3]),
                record(IF, sort::MEMORY, 0, [0, 4, 1]),
                record(READ, sort::WORD, 0, [5, 2, 0]),
                record(EQUAL, sort::BIT, 0, [6, 3, 0]),
                record(EQUAL, sort::BIT, 0, [7, 0, 0]),
                record(CONSTRAINT, sort::NONE, 0, [8, 0, 0]),
                record(CONSTANT, sort::WORD, 8, [0; 3]),
                record(READ, sort::WORD, 0, [5, 10, 0]),
                record(EQUAL, sort::BIT, 0, [11, 3, 0]),
                record(CONSTRAINT, sort::NONE, 0, [12, 0, 0]),
                record(TOP, sort::BIT, 0, [3, 0, 0]),
                record(GOAL, sort::NONE, 0, [14, 0, 0]),
            ];
            let assignment = Assignment {
                threads: 1,
                bits: vec![!taken, taken],
                first: first.clone(),
            };
            assert_eq!(first_false(&table, &assignment), Some(15));
        }
    }
}
