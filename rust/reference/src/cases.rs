//! Document 01's samples 4, 6, 7, 8 and 9, the cases of request 2026-05, and document 002's litmus
//! tests. The proved program runs the same cases and must print the same lines.

use crate::litmus::{amd, intel, Litmus};
use crate::records::{map_bytes, set_bytes, CELL_BYTES, STATEMENT_BYTES};
use crate::search::runs_to_halts;
use crate::trace::STEP_BYTES;
use crate::Instruction::{self, *};
use crate::{accept_set, read, replay, simulate, table_size};
use crate::{Cell, End, Ran, Read, Refusal, Set, Statement};

/// What the proved program prints.
pub fn reports() -> String {
    let samples: String = all().iter().map(Case::report).collect();
    let litmus: String = litmus_cases().iter().map(LitmusCase::report).collect();
    [samples, text_reports(), bound_reports(), litmus].concat()
}

/// Statements by word and argument, cells by address and value.
pub struct Case {
    pub name: &'static str,
    threads: Vec<Vec<(Instruction, u16)>>,
    map: Vec<(u16, u16)>,
    pub schedule: Vec<u8>,
}

impl Case {
    pub fn set(&self) -> Vec<u8> {
        let statements = |thread: &Vec<(Instruction, u16)>| {
            thread
                .iter()
                .map(|&(instruction, argument)| Statement::new(instruction, argument))
                .collect()
        };
        let threads: Vec<Vec<Statement>> = self.threads.iter().map(statements).collect();
        set_bytes(&threads)
    }

    pub fn map(&self) -> Vec<u8> {
        let cells: Vec<Cell> = self
            .map
            .iter()
            .map(|&(address, value)| Cell { address, value })
            .collect();
        map_bytes(&cells)
    }

    pub fn report(&self) -> String {
        run_report(self.name, &self.set(), &self.map(), &self.schedule)
    }
}

/// What simulation answers, the trace it writes, and, where it wrote one, what replay answers to that
/// trace.
fn run_report(name: &str, set: &[u8], map: &[u8], schedule: &[u8]) -> String {
    let mut trace = vec![0; schedule.len() * STEP_BYTES];
    let answer = simulate(set, map, schedule, &mut trace);
    let mut lines = vec![format!("{name}: {}", numbers(answer))];
    if answer.is_ok() {
        lines.extend(trace.chunks_exact(STEP_BYTES).map(blank_parted));
        let answer = replay(set, map, &trace);
        lines.push(format!("{name} replay: {}", numbers(answer)));
    }
    lines.join("\n") + "\n"
}

/// Number, place, end (0 code, 1 stuck, 2 open), code, steps.
fn numbers(answer: Result<Ran, Refusal>) -> String {
    match answer {
        Err(Refusal { number, place }) => format!("{number} {place} 0 0 0"),
        Ok(Ran { steps, end }) => match end {
            End::Code(code) => format!("0 0 0 {code} {steps}"),
            End::Stuck => format!("0 0 1 0 {steps}"),
            End::Open => format!("0 0 2 0 {steps}"),
        },
    }
}

fn blank_parted(bytes: &[u8]) -> String {
    let words: Vec<String> = bytes.iter().map(u8::to_string).collect();
    words.join(" ")
}

/// This many statements, all but the last ADDI 1.
fn adding(statements: usize) -> Vec<(Instruction, u16)> {
    let mut thread = vec![(Addi, 1); statements - 1];
    thread.push((Halt, 0));
    thread
}

/// JNZNS at this accu: code 2 where it jumps, else code 1.
fn jnzns_at(accu: u16) -> Vec<(Instruction, u16)> {
    vec![(Addi, accu), (Jnzns, 3), (Exit, 1), (Exit, 2)]
}

/// The two threads of request 2026-05; the first one's second CHECK can fall in the clearing step.
fn meeting(name: &'static str, schedule: &[u8]) -> Case {
    Case {
        name,
        threads: vec![
            vec![(Check, 0), (Check, 0), (Exit, 1)],
            vec![(Check, 0), (Jmp, 0)],
        ],
        map: vec![],
        schedule: schedule.to_vec(),
    }
}

pub fn all() -> Vec<Case> {
    vec![
        Case {
            name: "sample 4 jump to itself",
            threads: vec![vec![(Jmp, 0)], vec![(Addi, 1), (Exit, 3)]],
            map: vec![],
            schedule: vec![1, 0, 1],
        },
        // The step of HALT shows the sum and the product.
        Case {
            name: "sample 6 ADDI at 65535",
            threads: vec![vec![(Addi, 65_535), (Addi, 1), (Halt, 0)]],
            map: vec![],
            schedule: vec![0; 3],
        },
        Case {
            name: "sample 6 MULI at 300",
            threads: vec![vec![(Addi, 300), (Muli, 300), (Halt, 0)]],
            map: vec![],
            schedule: vec![0; 3],
        },
        Case {
            name: "sample 6 JNZNS at 32767",
            threads: vec![jnzns_at(32_767)],
            map: vec![],
            schedule: vec![0; 3],
        },
        Case {
            name: "sample 6 JNZNS at 0",
            threads: vec![jnzns_at(0)],
            map: vec![],
            schedule: vec![0; 3],
        },
        Case {
            name: "sample 6 JNZNS at 32768",
            threads: vec![jnzns_at(32_768)],
            map: vec![],
            schedule: vec![0; 3],
        },
        // The step of LOAD shows accu 1 and the cell written, that of HALT the cell as it is read
        // again.
        Case {
            name: "sample 7 CAS",
            threads: vec![vec![(Mem, 4), (Addi, 1), (Cas, 4), (Load, 4), (Halt, 0)]],
            map: vec![(4, 9)],
            schedule: vec![0; 5],
        },
        Case {
            name: "sample 8 FENCE with full 1",
            threads: vec![vec![(Store, 0), (Fence, 0), (Halt, 0)]],
            map: vec![],
            schedule: vec![0, 0],
        },
        Case {
            name: "sample 8 CHECK with full 1",
            threads: vec![vec![(Addi, 7), (Store, 3), (Check, 0), (Halt, 0)]],
            map: vec![],
            schedule: vec![0, 0, 0, 128, 0],
        },
        Case {
            name: "sample 9 32 statements",
            threads: vec![adding(32)],
            map: vec![],
            schedule: vec![0; 32],
        },
        Case {
            name: "sample 9 33 statements",
            threads: vec![adding(33)],
            map: vec![],
            schedule: vec![0; 33],
        },
        Case {
            name: "sample 9 64 steps",
            threads: vec![vec![(Jmp, 0)]],
            map: vec![],
            schedule: vec![0; 64],
        },
        Case {
            name: "sample 9 65 steps",
            threads: vec![vec![(Jmp, 0)]],
            map: vec![],
            schedule: vec![0; 65],
        },
        // The second CHECK comes two steps after the first.
        Case {
            name: "2026-05 one thread",
            threads: vec![vec![(Check, 0), (Jmp, 0)]],
            map: vec![],
            schedule: vec![0; 4],
        },
        // Step 2 clears, and its CHECK is counted: then thread 0 waits until thread 1 comes again.
        meeting("2026-05 two threads", &[0, 1, 0]),
        meeting("2026-05 two threads, one runs ahead", &[0, 1, 0, 0]),
        meeting("2026-05 two threads, both come", &[0, 1, 0, 1, 1, 0]),
    ]
}

// ---- sample 9, texts

/// A thread of one HALT, and a comment up to this length.
fn text(length: usize) -> Vec<u8> {
    let mut text = b"HALT\n.\n#".to_vec();
    text.resize(length, b'x');
    text
}

/// Number, place, statements, cells.
fn text_reports() -> String {
    let report = |length: usize| {
        let answer = read(&text(length), 64, 64);
        let answer = match answer {
            Err(Refusal { number, place }) => format!("{number} {place} 0 0"),
            Ok(Read { set, map }) => {
                let statements = set.len() / STATEMENT_BYTES;
                format!("0 0 {statements} {}", map.len() / CELL_BYTES)
            }
        };
        format!("sample 9 text of {length} bytes: {answer}\n")
    };
    report(16_384) + &report(16_385)
}

// ---- sample 9, bounds

/// Of the table of JMP 0: number, place, records.
fn bound_reports() -> String {
    let set = set_bytes(&[vec![Statement::new(Jmp, 0)]]);
    let report = |bound: u64| {
        let answer = match table_size(&set, &[], bound) {
            Err(Refusal { number, place }) => format!("{number} {place} 0"),
            Ok(records) => format!("0 0 {records}"),
        };
        format!("sample 9 table for K {bound}: {answer}\n")
    };
    [64, 65, 0, 1].map(report).concat()
}

// ---- litmus tests

/// A litmus test with all its runs.
pub struct LitmusCase {
    pub litmus: Litmus,
    runs: usize,
    /// The schedules that lead to the outcome, with the HALTs last by thread.
    outcomes: Vec<Vec<u8>>,
}

impl LitmusCase {
    fn new(litmus: Litmus) -> LitmusCase {
        let bare = litmus.bare();
        let set: Set = accept_set(&set_bytes(&bare.threads)).expect("an accepted set");
        let runs = runs_to_halts(&set, &bare.map);
        let halts = 0..set.threads.len() as u8;
        let outcomes = runs
            .iter()
            .filter(|(_, threads)| litmus.holds(threads))
            .map(|(run, _)| {
                let choices = run.iter().map(|choice| choice.schedule_byte());
                choices.chain(halts.clone()).collect()
            })
            .collect();
        LitmusCase {
            runs: runs.len(),
            outcomes,
            litmus,
        }
    }

    pub fn set(&self) -> Vec<u8> {
        set_bytes(&self.litmus.bare().threads)
    }

    pub fn map(&self) -> Vec<u8> {
        map_bytes(&self.litmus.bare().map)
    }

    /// A run to the outcome.
    pub fn schedule(&self) -> Option<&[u8]> {
        self.outcomes.first().map(Vec::as_slice)
    }

    /// How many runs there are and how many lead to the outcome; and one of these.
    fn report(&self) -> String {
        let (runs, outcomes) = (self.runs, self.outcomes.len());
        let line = format!(
            "{}: {runs} runs, {outcomes} with the outcome\n",
            self.litmus.name
        );
        match self.schedule() {
            None => line,
            Some(schedule) => {
                let name = self.litmus.number();
                line + &run_report(name, &self.set(), &self.map(), schedule)
            }
        }
    }
}

pub fn litmus_cases() -> Vec<LitmusCase> {
    let all = intel().into_iter().chain(amd());
    all.map(LitmusCase::new).collect()
}

#[cfg(test)]
mod tests {
    use super::*;

    #[test]
    fn answers_are_the_documents() {
        let answers: Vec<String> = all()
            .iter()
            .flat_map(|case| {
                let report = case.report();
                let answers: Vec<String> = report
                    .lines()
                    .filter(|line| line.contains(':'))
                    .map(str::to_string)
                    .collect();
                answers
            })
            .collect();
        assert_eq!(
            answers,
            [
                "sample 4 jump to itself: 0 0 0 3 3",
                "sample 4 jump to itself replay: 0 0 0 3 3",
                "sample 6 ADDI at 65535: 0 0 0 0 3",
                "sample 6 ADDI at 65535 replay: 0 0 0 0 3",
                "sample 6 MULI at 300: 0 0 0 0 3",
                "sample 6 MULI at 300 replay: 0 0 0 0 3",
                "sample 6 JNZNS at 32767: 0 0 0 2 3",
                "sample 6 JNZNS at 32767 replay: 0 0 0 2 3",
                "sample 6 JNZNS at 0: 0 0 0 1 3",
                "sample 6 JNZNS at 0 replay: 0 0 0 1 3",
                "sample 6 JNZNS at 32768: 0 0 0 1 3",
                "sample 6 JNZNS at 32768 replay: 0 0 0 1 3",
                "sample 7 CAS: 0 0 0 0 5",
                "sample 7 CAS replay: 0 0 0 0 5",
                "sample 8 FENCE with full 1: 12 1 0 0 0",
                "sample 8 CHECK with full 1: 0 0 0 0 5",
                "sample 8 CHECK with full 1 replay: 0 0 0 0 5",
                "sample 9 32 statements: 0 0 0 0 32",
                "sample 9 32 statements replay: 0 0 0 0 32",
                "sample 9 33 statements: 9 0 0 0 0",
                "sample 9 64 steps: 0 0 2 0 64",
                "sample 9 64 steps replay: 0 0 2 0 64",
                "sample 9 65 steps: 17 0 0 0 0",
                "2026-05 one thread: 0 0 2 0 4",
                "2026-05 one thread replay: 0 0 2 0 4",
                "2026-05 two threads: 0 0 2 0 3",
                "2026-05 two threads replay: 0 0 2 0 3",
                "2026-05 two threads, one runs ahead: 12 3 0 0 0",
                "2026-05 two threads, both come: 0 0 0 1 6",
                "2026-05 two threads, both come replay: 0 0 0 1 6",
            ]
        );
    }

    #[test]
    fn texts_of_16_384_and_16_385_bytes() {
        let reports = text_reports();
        let lines: Vec<&str> = reports.lines().collect();
        assert_eq!(
            lines,
            [
                "sample 9 text of 16384 bytes: 0 0 1 0",
                "sample 9 text of 16385 bytes: 1 0 0 0",
            ]
        );
    }

    // Each step has the same records.
    #[test]
    fn bounds_of_64_65_0_and_1() {
        let reports = bound_reports();
        let lines: Vec<&str> = reports.lines().collect();
        assert_eq!(
            lines,
            [
                "sample 9 table for K 64: 0 0 1481",
                "sample 9 table for K 65: 10 0 0",
                "sample 9 table for K 0: 10 0 0",
                "sample 9 table for K 1: 0 0 32",
            ]
        );
    }

    #[test]
    fn outcomes_are_document_002s() {
        for case in litmus_cases() {
            let name = case.litmus.name;
            assert_eq!(!case.outcomes.is_empty(), case.litmus.allowed, "{name}");
            let mut trace = vec![0; 64 * STEP_BYTES];
            for schedule in &case.outcomes {
                assert!(schedule.len() <= case.litmus.bound);
                let answer = simulate(&case.set(), &case.map(), schedule, &mut trace);
                assert!(
                    matches!(answer, Ok(ran) if ran.end == End::Code(0)),
                    "{name}"
                );
            }
        }
    }
}
