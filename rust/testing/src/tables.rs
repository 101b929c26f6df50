//! A set's table with its parts, and which records the machine's answer to an assignment names.

use crate::assignments::{broken, Broken};
use reference::encode::records;
use reference::formula::{operation::CONSTRAINT, FORMULA_BYTES};
use reference::records::{map_bytes, set_bytes};
use reference::well_formed::Parts;
use reference::{
    accept_set, encode, first_false, formulas, table_size, well_formed, Assignment, Cell, Formula,
    Set, Statement,
};
use std::ops::Range;

pub struct Table {
    /// Printed on failure.
    pub seed: u64,
    pub set: Set,
    pub map: Vec<Cell>,
    pub bound: usize,
    pub formulas: Vec<Formula>,
    pub parts: Parts,
}

impl Table {
    /// The second encoder's table. It is well formed, and its length is the closed form.
    pub fn new(threads: &[Vec<Statement>], map: Vec<Cell>, bound: usize) -> Table {
        let (set_bytes, map_bytes) = (set_bytes(threads), map_bytes(&map));
        let set = accept_set(&set_bytes).expect("an accepted set");
        let size = table_size(&set_bytes, &map_bytes, bound as u64).expect("accepted");
        assert_eq!(size as usize, records(&set, map.len(), bound));
        let mut bytes = vec![0xa5; size as usize * FORMULA_BYTES];
        let written = encode(&set_bytes, &map_bytes, bound as u64, &mut bytes);
        assert_eq!(written, Ok(size));
        let formulas = formulas(&bytes);
        let parts = well_formed(&formulas, threads.len(), map.len(), bound)
            .unwrap_or_else(|fault| panic!("{fault:?}"));
        Table {
            seed: 0,
            set,
            map,
            bound,
            formulas,
            parts,
        }
    }

    /// The record that is 0 where this is broken: each map cell and each step has one constraint.
    pub fn record_of(&self, broken: Broken) -> usize {
        match broken {
            Broken::Cell(cell) => self.constraint(self.parts.start.clone(), cell),
            Broken::Step(step) => self.constraint(self.parts.steps[step].clone(), 0),
            Broken::Goal => self.parts.goal,
        }
    }

    fn constraint(&self, mut part: Range<usize>, number: usize) -> usize {
        let is_constraint = |&at: &usize| self.formulas[at].operation == CONSTRAINT;
        part.by_ref()
            .filter(is_constraint)
            .nth(number)
            .expect("a constraint for each cell and each step")
    }

    /// Evaluates the table and runs the machine. Both must say the same; gives what that is.
    pub fn judge(&self, assignment: &Assignment) -> Option<Broken> {
        let expected = broken(&self.set, &self.map, self.bound, assignment);
        assert_eq!(
            first_false(&self.formulas, assignment),
            expected.map(|broken| self.record_of(broken)),
            "seed {}: {expected:?}",
            self.seed
        );
        expected
    }
}
