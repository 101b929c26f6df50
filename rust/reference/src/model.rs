//! Models: a solver's answer as bytes. All that is not as document 01 has it is refusal 15.

use crate::records::{map_bytes, MAX_GIVEN_MAP};
use crate::{accept_map, Assignment, Cell, Choice, Refusal};

/// "A model is 2·T·K bytes of 0 or 1 (by step; execute bits, then flush bits) and at most 256 map
/// cells; unlisted cells are 0."
#[derive(Clone, Debug, PartialEq, Eq)]
pub struct Model {
    pub threads: usize,
    pub bits: Vec<bool>,
    pub cells: Vec<Cell>,
}

/// The model of a set of so many threads for a bound.
pub fn accept_model(bytes: &[u8], threads: usize, bound: usize) -> Result<Model, Refusal> {
    let count = 2 * threads * bound;
    if bytes.len() < count {
        return Err(Refusal::MODEL);
    }
    let (bits, cells) = bytes.split_at(count);
    if bits.iter().any(|&bit| bit > 1) {
        return Err(Refusal::MODEL);
    }
    Ok(Model {
        threads,
        bits: bits.iter().map(|&bit| bit == 1).collect(),
        cells: accept_map(cells, MAX_GIVEN_MAP).map_err(|_| Refusal::MODEL)?,
    })
}

impl Model {
    /// That of a run: "the bit that is 1 in a step names the choice the run takes there".
    pub fn of_run(run: &[Choice], threads: usize, bound: usize, cells: Vec<Cell>) -> Model {
        let mut bits = vec![false; 2 * threads * bound];
        for (row, &choice) in bits.chunks_exact_mut(2 * threads).zip(run) {
            match choice {
                Choice::Execute(thread) => row[thread] = true,
                Choice::Flush(thread) => row[threads + thread] = true,
            }
        }
        Model {
            threads,
            bits,
            cells,
        }
    }

    /// The choices whose bits are 1, by step.
    pub fn run(&self) -> Vec<Choice> {
        self.bits
            .chunks_exact(2 * self.threads)
            .flat_map(|row| row.iter().enumerate().filter(|(_, &bit)| bit))
            .map(|(at, _)| match at.checked_sub(self.threads) {
                None => Choice::Execute(at),
                Some(thread) => Choice::Flush(thread),
            })
            .collect()
    }

    pub fn assignment(&self) -> Assignment {
        let mut first = vec![0; 65_536];
        for cell in &self.cells {
            first[usize::from(cell.address)] = cell.value;
        }
        Assignment {
            threads: self.threads,
            bits: self.bits.clone(),
            first,
        }
    }

    pub fn bytes(&self) -> Vec<u8> {
        let mut bytes: Vec<u8> = self.bits.iter().map(|&bit| u8::from(bit)).collect();
        bytes.extend(map_bytes(&self.cells));
        bytes
    }
}

#[cfg(test)]
mod tests {
    use super::*;

    fn cells(addresses: &[u16]) -> Vec<Cell> {
        let cell = |&address| Cell { address, value: 7 };
        addresses.iter().map(cell).collect()
    }

    #[test]
    fn bytes_of_a_run() {
        let run = [Choice::Execute(1), Choice::Flush(0)];
        let model = Model::of_run(&run, 2, 3, cells(&[4]));
        let bytes = [0, 1, 0, 0, 0, 0, 1, 0, 0, 0, 0, 0, 4, 0, 7, 0];
        assert_eq!(model.bytes(), bytes);
        assert_eq!(accept_model(&bytes, 2, 3), Ok(model.clone()));
        assert_eq!(model.run(), run);
        let assignment = model.assignment();
        assert!(assignment.bit(0, 0, 1) && assignment.bit(1, 1, 0));
        assert_eq!((assignment.first[4], assignment.first[5]), (7, 0));
    }

    #[test]
    fn models_that_are_refused() {
        let refused = |bytes: &[u8]| accept_model(bytes, 1, 2) == Err(Refusal::MODEL);
        assert!(!refused(&[0; 4]));
        assert!(!refused(&[1; 4]));
        // Too short, rest not whole cells, a bit above 1.
        assert!(refused(&[]));
        assert!(refused(&[0; 3]));
        assert!(refused(&[0; 5]) && refused(&[0; 7]));
        for bit in 0..4 {
            for value in [2, 128, 255] {
                let mut bytes = [0; 8];
                bytes[bit] = value;
                assert!(refused(&bytes));
            }
        }
        // Addresses not strictly ascending.
        let with = |addresses: &[u16]| [vec![0; 4], map_bytes(&cells(addresses))].concat();
        assert!(!refused(&with(&[1, 2])));
        assert!(refused(&with(&[2, 2])));
        assert!(refused(&with(&[2, 1])));
        // 256 cells and 257.
        let many = |count| with(&(0..count).collect::<Vec<u16>>());
        assert!(!refused(&many(256)));
        assert!(refused(&many(257)));
    }
}
