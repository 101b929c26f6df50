//! How often the compared reads reached each answer.

use reference::read::MAX_TEXT;
use reference::records::{
    field, CELL_BYTES, MAX_SET_MAP, MAX_STATEMENTS, MAX_THREADS, STATEMENT_BYTES,
};
use reference::{Read, Refusal};
use std::collections::BTreeSet;

/// The refusals of reading, by number.
const REFUSALS: [usize; 9] = [1, 2, 3, 4, 5, 6, 7, 8, 11];

#[derive(Clone, Default)]
pub struct TextCounts {
    refusals: [usize; 12],
    accepted: usize,
    /// Of 2 and of 3.
    lines: [BTreeSet<u32>; 2],
    of_most_bytes: usize,
    without_final_lf: usize,
    of_4_threads: usize,
    with_32_in_a_thread: usize,
    of_128_statements: usize,
    of_128_cells: usize,
    without_map: usize,
}

impl TextCounts {
    pub fn add(&mut self, text: &[u8], answer: &Result<Read, Refusal>) {
        let read = match answer {
            Ok(read) => read,
            Err(Refusal { number, place }) => {
                self.refusals[usize::from(*number)] += 1;
                if let 2 | 3 = number {
                    self.lines[usize::from(*number) - 2].insert(*place);
                }
                return;
            }
        };
        let statements = read.set.len() / STATEMENT_BYTES;
        let last = &read.set[read.set.len() - STATEMENT_BYTES..];
        let threads = usize::from(last[0]) + 1;
        let cells = read.map.len() / CELL_BYTES;
        self.accepted += 1;
        self.of_most_bytes += usize::from(text.len() == MAX_TEXT);
        self.without_final_lf += usize::from(!text.ends_with(b"\n"));
        self.of_4_threads += usize::from(threads == MAX_THREADS);
        let full = |record: &[u8]| usize::from(field(record, 6)) + 1 == MAX_STATEMENTS;
        let has_full = read.set.chunks(STATEMENT_BYTES).any(full);
        self.with_32_in_a_thread += usize::from(has_full);
        self.of_128_statements += usize::from(statements == MAX_THREADS * MAX_STATEMENTS);
        self.of_128_cells += usize::from(cells == MAX_SET_MAP);
        self.without_map += usize::from(cells == 0);
    }

    pub fn total(&self) -> usize {
        self.accepted + self.refusals.iter().sum::<usize>()
    }

    /// Each row that a full run of random texts must reach.
    pub fn rows(&self) -> Vec<(String, usize)> {
        let refusals = REFUSALS.map(|number| (format!("refusal {number}"), self.refusals[number]));
        let others = [
            ("accepted", self.accepted),
            ("different lines refused with 2", self.lines[0].len()),
            ("different lines refused with 3", self.lines[1].len()),
            ("accepted of 16,384 bytes", self.of_most_bytes),
            ("accepted without LF at the end", self.without_final_lf),
            ("accepted of 4 threads", self.of_4_threads),
            ("accepted with 32 in a thread", self.with_32_in_a_thread),
            ("accepted of 128 statements", self.of_128_statements),
            ("accepted of 128 cells", self.of_128_cells),
            ("accepted without a map", self.without_map),
        ];
        let others = others.map(|(what, count)| (what.to_string(), count));
        refusals.into_iter().chain(others).collect()
    }

    pub fn table(&self) -> String {
        let lines = self.rows().into_iter();
        lines
            .map(|(what, count)| format!("{count:>10}  {what}\n"))
            .collect()
    }
}
