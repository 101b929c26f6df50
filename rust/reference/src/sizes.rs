//! Sizes of tables beside the functional expression counts of document 002 (Tables 8, 9, 12 and 14) at
//! the same bounds, and those of the largest sets.

use crate::encode::records;
use crate::litmus::{amd, faulty_counters, intel, valid_counters, Sample};
use crate::records::{set_bytes, MAX_SET_MAP, MAX_STATEMENTS, MAX_THREADS};
use crate::Instruction::*;
use crate::{accept_set, Instruction, Statement};

/// A program of document 002 with its bound and expressions there, and our records.
pub struct Size {
    pub name: String,
    pub bound: usize,
    pub records: usize,
    pub expressions: usize,
}

impl Size {
    fn new(name: &str, sample: &Sample, bound: usize, expressions: usize) -> Size {
        Size {
            name: name.to_string(),
            bound,
            records: size(&sample.threads, sample.map.len(), bound),
            expressions,
        }
    }

    pub fn share(&self) -> f64 {
        self.records as f64 / self.expressions as f64
    }
}

/// Of the table of an accepted set with so many cells.
pub fn size(threads: &[Vec<Statement>], cells: usize, bound: usize) -> usize {
    let set = accept_set(&set_bytes(threads)).expect("an accepted set");
    records(&set, cells, bound)
}

pub fn beside_document_002() -> Vec<Size> {
    let litmus = intel().into_iter().chain(amd());
    let litmus = litmus.map(|l| Size::new(l.name, &l.bare(), l.bound, l.expressions));
    let counters = faulty_counters().into_iter().chain(valid_counters());
    let counters = counters.map(|c| Size::new(&c.name, &c.sample, c.bound, c.expressions));
    litmus.chain(counters).collect()
}

// ---- full sets

/// The records of tables of four threads of 32 statements with a map of 128 cells at K 64.
pub fn full_sets() -> [(&'static str, usize); 2] {
    let full = |threads: Vec<Vec<Statement>>| size(&threads, MAX_SET_MAP, 64);
    [
        ("all twenty words in turn", full(plain_mix())),
        ("the largest set: indirect CASs", full(largest())),
    ]
}

/// Four threads of 32 direct statements: all twenty words in turn, each as often as the others but
/// for the rest of the last round. Jumps go to the thread's first statement, the CHECKs are of one
/// checkpoint, and each thread's last statement is a JMP.
fn plain_mix() -> Vec<Vec<Statement>> {
    let mut words = Instruction::ALL.into_iter().cycle();
    let mut thread = || {
        let mut thread: Vec<Statement> = words
            .by_ref()
            .take(MAX_STATEMENTS)
            .map(|word| Statement::new(word, 0))
            .collect();
        thread[MAX_STATEMENTS - 1] = Statement::new(Jmp, 0);
        thread
    };
    (0..MAX_THREADS).map(|_| thread()).collect()
}

/// No statement has more records than an indirect CAS.
pub fn largest() -> Vec<Vec<Statement>> {
    let mut thread = vec![Statement::indirect(Cas, 0); MAX_STATEMENTS];
    thread[MAX_STATEMENTS - 1] = Statement::new(Halt, 0);
    vec![thread; MAX_THREADS]
}
