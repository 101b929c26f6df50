//! Random sets whose code depends on a word: a thread exits with 1 where its accu is what it was in
//! one run, else with 0. So a wrong word anywhere before shows in the goal.

use crate::assignments::{first_memory, next_choice};
use crate::sets::Threads;
use crate::{maps, sets, Random};
use reference::records::set_bytes;
use reference::Instruction::{self, *};
use reference::{accept_set, Cell, Choice, Machine, Statement};

pub struct Judged {
    pub threads: Threads,
    pub map: Vec<Cell>,
    pub first: Vec<u16>,
    /// Ends with code 1.
    pub run: Vec<Choice>,
}

/// Longer runs are given up.
const LONGEST: usize = 40;

/// None where the run that was tried does not reach the exit.
pub fn judged(random: &mut Random) -> Option<Judged> {
    judged_over(random, first_memory)
}

/// Over the first memory that is made for the map.
pub fn judged_over(
    random: &mut Random,
    first_memory: impl FnOnce(&mut Random, &[Cell]) -> Vec<u16>,
) -> Option<Judged> {
    let mut threads = sets::threads(random);
    for thread in &mut threads {
        *thread = straightened(random, thread);
    }
    let judge = random.below(threads.len());
    let start = threads[judge].len();
    let verdict = [(Subi, 0), (Jnz, start as u16 + 3), (Exit, 1), (Exit, 0)];
    threads[judge].extend(verdict.map(|(word, argument)| Statement::new(word, argument)));
    for (number, thread) in threads.iter_mut().enumerate() {
        if number != judge {
            thread.push(Statement::new(Halt, 0));
        }
    }

    let mut map = maps::cells(random);
    map.truncate(random.pick(&[0, 2, 20]));
    let first = first_memory(random, &map);
    let (accu, mut run) = run_to(random, &threads, &first, judge, start)?;
    threads[judge][start].argument = accu;
    run.extend([Choice::Execute(judge); 3]);
    Some(Judged {
        threads,
        map,
        first,
        run,
    })
}

/// At most ten statements without an end, in which jumps go forward and accu keeps what was loaded.
fn straightened(random: &mut Random, thread: &[Statement]) -> Vec<Statement> {
    let length = random.between(2, 10);
    let mut statements: Vec<Statement> = thread.iter().copied().take(length).collect();
    for (pc, statement) in statements.iter_mut().enumerate() {
        let forward = (pc + 1 + random.below(2)).min(length) as u16;
        match statement.instruction {
            Halt | Exit => *statement = Statement::new(Addi, forward),
            Load if random.chance(60) => statement.instruction = Add,
            word if word.is_jump() => statement.argument = forward,
            _ => {}
        }
    }
    while statements.len() < length {
        statements.push(last(random));
    }
    statements[length - 1] = last(random);
    statements
}

/// A word that takes one from memory.
fn last(random: &mut Random) -> Statement {
    const WORDS: [Instruction; 6] = [Load, Add, Sub, Mul, Mem, Cas];
    Statement {
        instruction: random.pick(&WORDS),
        indirect: random.chance(50),
        argument: random.below(6) as u16,
    }
}

/// A random run until the thread stands at this pc and may execute, with its accu there.
fn run_to(
    random: &mut Random,
    threads: &Threads,
    first: &[u16],
    thread: usize,
    pc: usize,
) -> Option<(u16, Vec<Choice>)> {
    let set = accept_set(&set_bytes(threads)).expect("an accepted set");
    let mut machine = Machine::over(&set, first);
    let flushes = random.pick(&[5, 30, 60]);
    let mut run = Vec::new();
    while run.len() < LONGEST {
        let registers = machine.threads()[thread];
        if registers.pc == pc && machine.permitted(Choice::Execute(thread)) {
            return Some((registers.accu, run));
        }
        let choice = next_choice(random, &machine, flushes)?;
        machine.step(choice).expect("the memory has every cell");
        run.push(choice);
    }
    None
}
