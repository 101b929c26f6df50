//! Random sets: threads of statements that run long, that meet at checkpoints, that store and
//! forward; and sets that break one rule of document 01.

use crate::Random;
use reference::records::MAX_STATEMENTS;
use reference::Instruction::{self, *};
use reference::Statement;

pub type Threads = Vec<Vec<Statement>>;

/// What a set is rich in.
#[derive(Clone, Copy)]
enum Kind {
    Mixed,
    Stores,
    Checks,
    Jumps,
    Swaps,
}

impl Kind {
    const ALL: [Kind; 5] = [
        Kind::Mixed,
        Kind::Stores,
        Kind::Checks,
        Kind::Jumps,
        Kind::Swaps,
    ];

    /// By instruction number. HALT and EXIT are rare, so that runs go deep.
    fn weights(self) -> [usize; 20] {
        match self {
            Kind::Mixed => [4, 4, 2, 4, 4, 4, 4, 4, 4, 2, 3, 3, 3, 3, 3, 4, 4, 1, 1, 3],
            Kind::Stores => [9, 14, 2, 3, 4, 3, 2, 2, 1, 2, 1, 1, 1, 1, 1, 4, 2, 1, 1, 1],
            Kind::Checks => [3, 4, 1, 1, 3, 1, 1, 1, 1, 3, 1, 1, 1, 1, 1, 1, 1, 1, 1, 14],
            Kind::Jumps => [1, 2, 1, 1, 4, 1, 4, 1, 2, 4, 6, 6, 6, 6, 6, 1, 1, 1, 1, 1],
            Kind::Swaps => [3, 4, 2, 1, 4, 1, 3, 1, 1, 2, 2, 2, 1, 1, 1, 8, 10, 1, 1, 1],
        }
    }
}

/// What the statements of one thread are drawn from.
struct Source {
    kind: Kind,
    /// Percent of the memory words that are indirect.
    indirect: usize,
    /// Few, so that the stores, loads and swaps of the threads meet.
    addresses: Vec<u16>,
    checkpoints: Vec<u16>,
}

/// Threads that document 01 accepts.
pub fn threads(random: &mut Random) -> Threads {
    let kind = random.pick(&Kind::ALL);
    let indirect = random.pick(&[5, 30, 60]);
    let addresses: Vec<u16> = (0..random.between(1, 6)).map(|_| address(random)).collect();
    let checkpoints = checkpoint_numbers(random);
    (0..random.between(1, 4))
        .map(|_| {
            let source = Source {
                kind,
                indirect,
                addresses: addresses.clone(),
                checkpoints: some_of(random, &checkpoints),
            };
            thread(random, &source)
        })
        .collect()
}

/// Some sets are as in the tests of simulation; others are short and end in EXIT, so that many runs
/// fail.
pub fn some_exiting(random: &mut Random) -> Threads {
    if random.chance(60) {
        exiting(random)
    } else {
        threads(random)
    }
}

/// Short threads, many of which end in EXIT.
pub fn exiting(random: &mut Random) -> Threads {
    let mut threads = threads(random);
    for thread in &mut threads {
        let length = random.between(1, 7).min(thread.len());
        thread.truncate(length);
        for statement in thread.iter_mut() {
            if statement.instruction.is_jump() {
                statement.argument %= length as u16;
            }
        }
        let code = random.pick(&[0, 1, 1, 7, 65_535]);
        thread[length - 1] = match random.below(4) {
            0 => Statement::new(Halt, 0),
            1 => Statement::new(Jmp, random.below(length) as u16),
            _ => Statement::new(Exit, code),
        };
    }
    threads
}

fn address(random: &mut Random) -> u16 {
    match random.below(20) {
        0 => random.pick(&[8, 15, 16, 255, 256, 300, 32_768, 65_535]),
        1 => random.below(32) as u16,
        _ => random.below(6) as u16,
    }
}

/// From 1 to 8 different numbers.
fn checkpoint_numbers(random: &mut Random) -> Vec<u16> {
    let mut numbers = vec![0, 1, 2, 3, 255, 256, 32_768, 65_535];
    let count = random.pick(&[1, 1, 2, 2, 3, 4, 8]);
    while numbers.len() > count {
        let index = random.below(numbers.len());
        numbers.remove(index);
    }
    numbers
}

/// At least one, so that some checkpoints are shared by some of the threads only.
fn some_of(random: &mut Random, numbers: &[u16]) -> Vec<u16> {
    let some: Vec<u16> = numbers
        .iter()
        .copied()
        .filter(|_| random.chance(60))
        .collect();
    if some.is_empty() {
        numbers.to_vec()
    } else {
        some
    }
}

fn thread(random: &mut Random, source: &Source) -> Vec<Statement> {
    let length = match random.below(5) {
        0 => random.between(1, 6),
        1 | 2 => random.between(3, 12),
        3 => random.between(1, MAX_STATEMENTS),
        _ => MAX_STATEMENTS,
    };
    let weights = source.kind.weights();
    let mut statements: Vec<Statement> = (0..length - 1)
        .map(|pc| {
            let instruction = Instruction::ALL[random.weighted(&weights)];
            statement(random, source, instruction, pc, length)
        })
        .collect();
    let last = random.pick(&[Jmp, Jmp, Jmp, Halt, Exit]);
    statements.push(statement(random, source, last, length - 1, length));
    statements
}

fn statement(
    random: &mut Random,
    source: &Source,
    instruction: Instruction,
    pc: usize,
    length: usize,
) -> Statement {
    if instruction.is_memory() {
        return Statement {
            instruction,
            indirect: random.chance(source.indirect),
            argument: random.pick(&source.addresses),
        };
    }
    let argument = match instruction {
        Fence | Halt => 0,
        Check => random.pick(&source.checkpoints),
        Exit => random.pick(&[0, 1, 2, 3, 255, 256, 65_535]),
        _ if instruction.is_jump() => target(random, instruction, pc, length),
        _ => immediate(random),
    };
    Statement::new(instruction, argument)
}

fn immediate(random: &mut Random) -> u16 {
    match random.below(6) {
        0 => random.pick(&[255, 256, 300, 32_767, 32_768, 65_535]),
        1 if random.chance(30) => random.word(),
        _ => random.below(6) as u16,
    }
}

/// Often the statement itself or the next one, the two traps of document 01. A JMP to itself is
/// rarer, since its thread does nothing else any more.
fn target(random: &mut Random, instruction: Instruction, pc: usize, length: usize) -> u16 {
    let to_itself = if instruction == Jmp { 3 } else { 10 };
    let target = if random.chance(to_itself) {
        pc
    } else if random.chance(20) && pc + 1 < length {
        pc + 1
    } else {
        random.below(length)
    };
    target as u16
}

/// Breaks one rule that speaks of the set as a whole, which changing a byte seldom does. The
/// threads may still be accepted, as where a jump stays in its thread.
pub fn break_rule(random: &mut Random, threads: &mut Threads) {
    let at = random.below(threads.len());
    let pc = random.below(threads[at].len());
    match random.below(7) {
        // 33 statements.
        0 => {
            let first = Statement::new(Fence, 0);
            while threads[at].len() <= MAX_STATEMENTS {
                threads[at].insert(0, first);
            }
        }
        // Five threads.
        1 => {
            while threads.len() <= 4 {
                threads.push(vec![Statement::new(Halt, 0)]);
            }
        }
        // Nine checkpoints.
        2 => {
            let mut checks: Vec<Statement> = (10..19).map(|n| Statement::new(Check, n)).collect();
            checks.push(Statement::new(Halt, 0));
            threads[at] = checks;
        }
        // A jump just beyond the last statement, or to it.
        3 => {
            let jump = random.pick(&[Jmp, Jz, Jnz, Js, Jns, Jnzns]);
            let target = threads[at].len() - random.below(2);
            threads[at][pc] = Statement::new(jump, target as u16);
        }
        // Any instruction last.
        4 => {
            let last = random.pick(&Instruction::ALL);
            *threads[at].last_mut().expect("threads are not empty") = Statement::new(last, 0);
        }
        // Mode 1 on any instruction.
        5 => threads[at][pc].indirect = true,
        // An argument on any instruction.
        _ => threads[at][pc].argument = random.between(0, 40) as u16,
    }
}

#[cfg(test)]
mod tests {
    use super::*;
    use reference::accept_set;
    use reference::records::set_bytes;

    #[test]
    fn threads_are_accepted() {
        let mut random = Random::new(1);
        for _ in 0..2000 {
            let threads = threads(&mut random);
            assert!(accept_set(&set_bytes(&threads)).is_ok());
        }
    }

    #[test]
    fn broken_rules_are_mostly_refused() {
        let mut random = Random::new(1);
        let refused = (0..2000).filter(|_| {
            let mut threads = threads(&mut random);
            break_rule(&mut random, &mut threads);
            accept_set(&set_bytes(&threads)).is_err()
        });
        assert!(refused.count() > 1000);
    }
}
