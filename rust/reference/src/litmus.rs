//! The litmus tests and counters of document 002: its programs with their bounds and sizes, which
//! registers the outcomes ask for, and the tests with code that exits with 1 where the outcome holds.

use crate::Instruction::{self, *};
use crate::{Cell, Statement, Thread};

type Program = Vec<(Instruction, u16)>;

/// What must hold of a thread's registers in the outcome; mem is 1 or not asked for.
#[derive(Clone, Copy, Default)]
struct Outcome {
    mem_1: bool,
    accu: Option<u16>,
}

impl Outcome {
    fn is_asked(self) -> bool {
        self.mem_1 || self.accu.is_some()
    }

    fn holds(self, thread: &Thread) -> bool {
        self.accu.is_none_or(|accu| thread.accu == accu) && (!self.mem_1 || thread.mem == 1)
    }
}

pub struct Litmus {
    pub name: &'static str,
    pub allowed: bool,
    /// The bound in Table 8 or 9 of document 002: the length of the longest run.
    pub bound: usize,
    /// The number of expressions of its functional encoding there.
    pub expressions: usize,
    threads: Vec<Program>,
    outcomes: Vec<Outcome>,
}

/// A set as threads and map.
pub struct Sample {
    pub threads: Vec<Vec<Statement>>,
    pub map: Vec<Cell>,
}

/// Where the value 1 stands that a thread's mem is compared with.
const COMPARED: u16 = 10;

impl Litmus {
    /// The statements as document 002 has them, with the HALT that a thread gains.
    pub fn bare(&self) -> Sample {
        let threads = self.threads.iter().map(|program| {
            let mut statements = statements(program);
            statements.push(Statement::new(Halt, 0));
            statements
        });
        Sample {
            threads: threads.collect(),
            map: self.initial(),
        }
    }

    /// Whether the outcome holds in the threads at their HALTs.
    pub fn holds(&self, threads: &[Thread]) -> bool {
        let mut pairs = self.outcomes.iter().zip(threads);
        pairs.all(|(outcome, thread)| outcome.holds(thread))
    }

    /// The accu and the mem that each thread's outcome asks for, 255 where any will do.
    pub fn asked(&self) -> Vec<u8> {
        let asked = |outcome: &Outcome| {
            let accu = outcome.accu.map_or(255, |accu| accu as u8);
            [accu, if outcome.mem_1 { 1 } else { 255 }]
        };
        self.outcomes.iter().flat_map(asked).collect()
    }

    /// Up to the comma of the name.
    pub fn number(&self) -> &'static str {
        self.name.split(',').next().unwrap_or(self.name)
    }

    fn initial(&self) -> Vec<Cell> {
        // Example A.4 has one cell, the others two.
        let count = if self.threads.len() == 1 { 1 } else { 2 };
        (0..count).map(|address| cell(address, 0)).collect()
    }

    /// Each thread of the outcome reaches CHECK 0 only where its part of the outcome holds, and the
    /// first of them exits with 1 after it.
    pub fn judged(&self) -> Sample {
        let mut map = self.initial();
        let mut exits = false;
        let mut threads = Vec::new();
        for (number, (program, outcome)) in (0..).zip(self.threads.iter().zip(&self.outcomes)) {
            let mut program = program.clone();
            if outcome.is_asked() {
                let compared = COMPARED + number;
                map.push(cell(compared, 1));
                add_verdict(&mut program, *outcome, compared, !exits);
                exits = true;
            }
            program.push((Halt, 0));
            threads.push(statements(&program));
        }
        Sample { threads, map }
    }

    /// No run of `judged` is longer: there are no loops, and each STORE is flushed once.
    pub fn judged_bound(&self) -> usize {
        let threads = self.judged().threads;
        let all = threads.iter().flatten();
        let stores = all.clone().filter(|s| s.instruction == Store);
        all.count() + stores.count()
    }
}

/// Goes to the HALT that follows unless the outcome holds. A CAS tells whether mem is 1.
fn add_verdict(program: &mut Program, outcome: Outcome, compared: u16, exits: bool) {
    let mut verdict: Program = Vec::new();
    match outcome.accu {
        None => {}
        Some(0) => verdict.push((Jnz, 0)),
        Some(value) => verdict.extend([(Subi, value), (Jnz, 0)]),
    }
    if outcome.mem_1 {
        verdict.extend([(Cas, compared), (Jz, 0)]);
    }
    verdict.push((Check, 0));
    if exits {
        verdict.push((Exit, 1));
    }
    let halt = (program.len() + verdict.len()) as u16;
    for (instruction, argument) in &mut verdict {
        if instruction.is_jump() {
            *argument = halt;
        }
    }
    program.extend(verdict);
}

fn statements(program: &[(Instruction, u16)]) -> Vec<Statement> {
    program
        .iter()
        .map(|&(instruction, argument)| Statement::new(instruction, argument))
        .collect()
}

fn cell(address: u16, value: u16) -> Cell {
    Cell { address, value }
}

const MEM_1: Outcome = Outcome {
    mem_1: true,
    accu: None,
};
const ACCU_0: Outcome = Outcome {
    mem_1: false,
    accu: Some(0),
};
const ACCU_1: Outcome = Outcome {
    mem_1: false,
    accu: Some(1),
};
const MEM_1_ACCU_0: Outcome = Outcome {
    mem_1: true,
    accu: Some(0),
};
const ANY: Outcome = Outcome {
    mem_1: false,
    accu: None,
};

/// Appendix A, with Table 8.
pub fn intel() -> Vec<Litmus> {
    vec![
        Litmus {
            name: "Intel 1, stores are not reordered with other stores",
            allowed: false,
            bound: 9,
            expressions: 2051,
            threads: store_store_load_load(),
            outcomes: vec![ANY, MEM_1_ACCU_0],
        },
        Litmus {
            name: "Intel 2, stores are not reordered with older loads",
            allowed: false,
            bound: 10,
            expressions: 2508,
            threads: load_store_twice(),
            outcomes: vec![MEM_1; 2],
        },
        Litmus {
            name: "Intel 3, loads may be reordered with older stores",
            allowed: true,
            bound: 10,
            expressions: 2408,
            threads: store_load_twice(&[]),
            outcomes: vec![ACCU_0; 2],
        },
        Litmus {
            name: "Intel 4, loads are not reordered with older stores to the same location",
            allowed: false,
            bound: 5,
            expressions: 627,
            threads: vec![vec![(Addi, 1), (Store, 0), (Load, 0)]],
            outcomes: vec![ACCU_0],
        },
        Litmus {
            name: "Intel 5, intra-processor forwarding is allowed",
            allowed: true,
            bound: 12,
            expressions: 3228,
            threads: vec![
                vec![(Addi, 1), (Store, 0), (Load, 0), (Load, 1)],
                vec![(Addi, 1), (Store, 1), (Load, 1), (Load, 0)],
            ],
            outcomes: vec![ACCU_0; 2],
        },
        Litmus {
            name: "Intel 6, stores are transitively visible",
            allowed: false,
            bound: 13,
            expressions: 4889,
            threads: transitive_stores(),
            outcomes: vec![ANY, MEM_1, MEM_1_ACCU_0],
        },
        Litmus {
            name: "Intel 7, stores are seen in a consistent order by other threads",
            allowed: false,
            bound: 14,
            expressions: 6770,
            threads: two_writers_two_readers(Store),
            outcomes: vec![ANY, ANY, MEM_1_ACCU_0, MEM_1_ACCU_0],
        },
        Litmus {
            name: "Intel 8, locked instructions have a total order",
            allowed: false,
            bound: 12,
            expressions: 6000,
            threads: two_writers_two_readers(Cas),
            outcomes: vec![ANY, ANY, MEM_1_ACCU_0, MEM_1_ACCU_0],
        },
        Litmus {
            name: "Intel 9, loads are not reordered with locks",
            allowed: false,
            bound: 8,
            expressions: 2058,
            threads: vec![
                vec![(Addi, 1), (Cas, 0), (Load, 1)],
                vec![(Addi, 1), (Cas, 1), (Load, 0)],
            ],
            outcomes: vec![ACCU_0; 2],
        },
        Litmus {
            name: "Intel 10, stores are not reordered with locks",
            allowed: false,
            bound: 8,
            expressions: 1938,
            threads: vec![
                vec![(Addi, 1), (Cas, 0), (Store, 1)],
                vec![(Mem, 1), (Load, 0)],
            ],
            outcomes: vec![ANY, MEM_1_ACCU_0],
        },
    ]
}

/// Appendix B, with Table 9.
pub fn amd() -> Vec<Litmus> {
    vec![
        Litmus {
            name: "AMD 1, stores are not reordered with other stores",
            allowed: false,
            bound: 9,
            expressions: 2051,
            threads: store_store_load_load(),
            outcomes: vec![ANY, MEM_1_ACCU_0],
        },
        Litmus {
            name: "AMD 2, stores are not reordered with older loads",
            allowed: false,
            bound: 10,
            expressions: 2508,
            threads: load_store_twice(),
            outcomes: vec![MEM_1; 2],
        },
        // As printed each thread loads its own cell, which cannot give 1 then: the other's is meant.
        Litmus {
            name: "AMD 3, stores can be arbitrarily delayed",
            allowed: true,
            bound: 16,
            expressions: 4536,
            threads: vec![
                vec![(Addi, 1), (Store, 0), (Addi, 1), (Store, 0), (Load, 1)],
                vec![(Addi, 1), (Store, 1), (Addi, 1), (Store, 1), (Load, 0)],
            ],
            outcomes: vec![ACCU_1; 2],
        },
        Litmus {
            name: "AMD 4, loads may be reordered with older stores",
            allowed: true,
            bound: 10,
            expressions: 2408,
            threads: store_load_twice(&[]),
            outcomes: vec![ACCU_0; 2],
        },
        Litmus {
            name: "AMD 5, sequential consistency",
            allowed: false,
            bound: 12,
            expressions: 3108,
            threads: store_load_twice(&[(Fence, 0)]),
            outcomes: vec![ACCU_0; 2],
        },
        Litmus {
            name: "AMD 6, stores are seen in a consistent order by other threads",
            allowed: false,
            bound: 14,
            expressions: 6770,
            threads: two_writers_two_readers(Store),
            outcomes: vec![ANY, ANY, MEM_1_ACCU_0, MEM_1_ACCU_0],
        },
        Litmus {
            name: "AMD 7, stores are transitively visible",
            allowed: false,
            bound: 13,
            expressions: 4889,
            threads: transitive_stores(),
            outcomes: vec![ANY, MEM_1, MEM_1_ACCU_0],
        },
        Litmus {
            name: "AMD 8, intra-processor forwarding is allowed",
            allowed: true,
            bound: 12,
            expressions: 3348,
            threads: forwarding(&[]),
            outcomes: vec![MEM_1_ACCU_0; 2],
        },
        Litmus {
            name: "AMD 9, global visibility",
            allowed: false,
            bound: 14,
            expressions: 4168,
            threads: forwarding(&[(Fence, 0)]),
            outcomes: vec![MEM_1_ACCU_0; 2],
        },
    ]
}

fn store_store_load_load() -> Vec<Program> {
    vec![
        vec![(Addi, 1), (Store, 0), (Store, 1)],
        vec![(Mem, 1), (Load, 0)],
    ]
}

fn load_store_twice() -> Vec<Program> {
    vec![
        vec![(Mem, 0), (Addi, 1), (Store, 1)],
        vec![(Mem, 1), (Addi, 1), (Store, 0)],
    ]
}

fn store_load_twice(between: &[(Instruction, u16)]) -> Vec<Program> {
    [(0, 1), (1, 0)]
        .map(|(own, other)| [&[(Addi, 1), (Store, own)], between, &[(Load, other)]].concat())
        .to_vec()
}

fn forwarding(between: &[(Instruction, u16)]) -> Vec<Program> {
    [(0, 1), (1, 0)]
        .map(|(own, other)| {
            let after = [(Mem, own), (Load, other)];
            [&[(Addi, 1), (Store, own)], between, &after].concat()
        })
        .to_vec()
}

fn transitive_stores() -> Vec<Program> {
    vec![
        vec![(Addi, 1), (Store, 0)],
        vec![(Mem, 0), (Jnz, 3), (Addi, 1), (Store, 1)],
        vec![(Mem, 1), (Load, 0)],
    ]
}

fn two_writers_two_readers(write: Instruction) -> Vec<Program> {
    vec![
        vec![(Addi, 1), (write, 0)],
        vec![(Addi, 1), (write, 1)],
        vec![(Mem, 0), (Load, 1)],
        vec![(Mem, 1), (Load, 0)],
    ]
}

// ---- counters

/// A counter with its bound and its functional size in Table 12 or 14 of document 002.
pub struct Counter {
    pub name: String,
    pub bound: usize,
    pub expressions: usize,
    pub sample: Sample,
}

/// Threads that count, increments, bound, expressions: the rows of a table with room for the checker
/// among four threads.
type Rows = [(u16, u16, usize, usize); 6];

const FAULTY: Rows = [
    (2, 2, 45, 24_783),
    (2, 3, 63, 34_539),
    (2, 4, 81, 44_295),
    (3, 2, 65, 50_284),
    (3, 3, 92, 70_939),
    (3, 4, 119, 91_594),
];

const VALID: Rows = [
    (2, 2, 77, 46_453),
    (2, 3, 111, 66_785),
    (2, 4, 145, 87_117),
    (3, 2, 185, 157_645),
    (3, 3, 272, 231_508),
    (3, 4, 359, 305_371),
];

/// Listing 10, with Table 12. The bounds above 64 are no bounds here; the closed form counts for
/// them all the same.
pub fn faulty_counters() -> Vec<Counter> {
    counters("faulty", &FAULTY, faulty_counter)
}

/// Listing 12, with Table 14.
pub fn valid_counters() -> Vec<Counter> {
    counters("valid", &VALID, valid_counter)
}

fn counters(name: &str, rows: &Rows, sample: fn(u16, u16) -> Sample) -> Vec<Counter> {
    rows.iter()
        .map(|&(count, increments, bound, expressions)| Counter {
            name: format!("{name} counter {count}x{increments}"),
            bound,
            expressions,
            sample: sample(count, increments),
        })
        .collect()
}

/// So many threads that count, each so often, and the checker.
pub fn faulty_counter(count: u16, increments: u16) -> Sample {
    counter(count, increments, |local| {
        vec![
            (Load, 0),
            (Addi, 1),
            (Store, 0),
            (Load, local),
            (Subi, 1),
            (Store, local),
            (Jnz, 0),
            (Check, 0),
            (Halt, 0),
        ]
    })
}

/// The same with a CAS: Listing 12, which our copy lacks, made again from the prose and its step
/// counts.
pub fn valid_counter(count: u16, increments: u16) -> Sample {
    counter(count, increments, |local| {
        vec![
            (Mem, 0),
            (Addi, 1),
            (Cas, 0),
            (Jz, 0),
            (Load, local),
            (Subi, 1),
            (Store, local),
            (Jnz, 0),
            (Check, 0),
            (Halt, 0),
        ]
    })
}

fn counter(count: u16, increments: u16, counting: impl Fn(u16) -> Program) -> Sample {
    let locals = 10..10 + count;
    let counting = locals.clone().map(|local| statements(&counting(local)));
    let checker = statements(&checker(count * increments));
    let locals = locals.map(|local| cell(local, increments));
    Sample {
        threads: counting.chain([checker]).collect(),
        map: [cell(0, 0)].into_iter().chain(locals).collect(),
    }
}

/// Listing 11 with SUB for CMP, which is malformed here: Table 5 of document 002 gives both one
/// effect.
fn checker(sum: u16) -> Program {
    vec![
        (Check, 0),
        (Addi, sum),
        (Sub, 0),
        (Jnz, 5),
        (Exit, 0),
        (Exit, 1),
    ]
}
