//! The files of `examples/litmus` and `examples/counters`: document 002's litmus tests and counters as
//! set texts, and the answer in an example's first line. Tests compare them with the files.

use crate::litmus::{amd, faulty_counter, intel, valid_counter, Litmus, Sample};
use crate::records::set_bytes;
use crate::search::{longest_run, shortest_failing};
use crate::trace::MAX_STEPS;
use crate::{accept_set, Cell, Set, Statement};

/// A file of `examples/`. Its first line says what it shows and what the answer is.
pub struct ExampleFile {
    /// Under `examples/`.
    pub path: String,
    pub shows: String,
    /// All lines but the first.
    pub rest: String,
    sample: Sample,
}

impl ExampleFile {
    pub fn text(&self) -> String {
        let set = accept_set(&set_bytes(&self.sample.threads)).expect("an accepted set");
        let answer = answer(&set, &self.sample.map);
        format!("# {}: {answer}\n{}", self.shows, self.rest)
    }
}

/// How short a run can be that fails; or, where none fails, how long a run can be, up to 64 steps.
pub fn answer(set: &Set, map: &[Cell]) -> String {
    match shortest_failing(set, map, MAX_STEPS) {
        Some(run) => format!("fails within {} steps", run.len()),
        None => format!(
            "no run of at most {} steps fails",
            longest_run(set, map, MAX_STEPS)
        ),
    }
}

pub fn all() -> Vec<ExampleFile> {
    let litmus = intel().into_iter().chain(amd());
    let litmus = litmus.map(|litmus| litmus_file(&litmus));
    litmus.chain(counter_files()).collect()
}

// ---- litmus tests

const TO_CHECKPOINT: &str = "# to CHECK 0 if its part of the outcome holds, else to HALT\n";

fn litmus_file(litmus: &Litmus) -> ExampleFile {
    let (maker, number) = litmus.number().split_once(' ').expect("maker and number");
    let number: usize = number.parse().expect("a number");
    let sample = litmus.judged();
    let bare = litmus.bare().threads;
    let thread = |(statements, bare): (&Vec<Statement>, &Vec<Statement>)| {
        // Without the HALT that the bare thread gains.
        let (program, judging) = statements.split_at(bare.len() - 1);
        let is_asked = judging.len() > 1;
        let comment = if is_asked { TO_CHECKPOINT } else { "" };
        lines(program) + comment + &lines(judging) + ".\n"
    };
    let threads: String = sample.threads.iter().zip(&bare).map(thread).collect();
    ExampleFile {
        path: format!("litmus/{}-{number:02}.txt", maker.to_lowercase()),
        shows: litmus.name.to_string(),
        rest: outcome_line(litmus) + &threads + &map_lines(&sample.map),
        sample,
    }
}

fn outcome_line(litmus: &Litmus) -> String {
    let asked = litmus.asked();
    let of_thread = |(thread, asked): (usize, &[u8])| {
        let registers = [("mem", asked[1]), ("accu", asked[0])];
        let known = registers.iter().filter(|(_, value)| *value != 255);
        let known: Vec<String> = known
            .map(|(name, value)| format!("{name} {value}"))
            .collect();
        (!known.is_empty()).then(|| format!("{} in thread {thread}", known.join(" and ")))
    };
    let parts = asked.chunks(2).enumerate().filter_map(of_thread);
    let parts: Vec<String> = parts.collect();
    format!(
        "# A run with this outcome exits with 1: {}.\n",
        parts.join(", ")
    )
}

// ---- counters

/// Of document 002's sizes those whose answer needs at most 64 steps, and smaller ones.
fn counter_files() -> Vec<ExampleFile> {
    let faulty = [(2, 1), (2, 2), (2, 3), (3, 2)]
        .map(|size| counter_file("faulty", "LOAD and STORE", size, faulty_counter));
    let valid = [(2, 1), (2, 2)].map(|size| counter_file("valid", "CAS", size, valid_counter));
    faulty.into_iter().chain(valid).collect()
}

const COUNTER_CELLS: &str = "\
# Cell 0 is the counter; a cell from 10 on is how often its thread still counts. The last thread exits
# with 1 where the others are done and the counter is not the sum.
";

fn counter_file(
    name: &str,
    by: &str,
    (count, increments): (u16, u16),
    sample: fn(u16, u16) -> Sample,
) -> ExampleFile {
    let threads = ["Two", "Three"][usize::from(count) - 2];
    let times = ["once", "twice", "three times"][usize::from(increments) - 1];
    let sample = sample(count, increments);
    let statements = sample.threads.iter().map(|thread| lines(thread) + ".\n");
    let statements: String = statements.collect();
    ExampleFile {
        path: format!("counters/{name}-{count}x{increments}.txt"),
        shows: format!("{threads} threads count {times} each by {by}"),
        rest: COUNTER_CELLS.to_string() + &statements + &map_lines(&sample.map),
        sample,
    }
}

// ---- lines

fn lines(statements: &[Statement]) -> String {
    let line = |statement: &Statement| format!("{statement}\n");
    statements.iter().map(line).collect()
}

fn map_lines(map: &[Cell]) -> String {
    let line = |cell: &Cell| format!("{} {}\n", cell.address, cell.value);
    map.iter().map(line).collect()
}
