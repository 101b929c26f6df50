//! Exhaustive search: every state or every run of a set over a map that has all the cells it reads.

use crate::Instruction::Halt;
use crate::{Cell, Choice, End, Machine, Set, Thread};
use std::collections::HashSet;

/// A state, as far as what follows depends on it: threads, the cells, the end.
type Key = (Vec<Thread>, Vec<Option<u16>>, bool);

/// The cells are those of the map and those that STOREs and CASs with plain arguments write.
fn key(machine: &Machine, addresses: &[u16]) -> Key {
    let cells = addresses.iter().map(|&at| machine.memory().read(at));
    let ended = matches!(machine.end(), End::Code(_));
    (machine.threads().to_vec(), cells.collect(), ended)
}

fn addresses(set: &Set, map: &[Cell]) -> Vec<u16> {
    let statements = set.threads.iter().flatten();
    let mut addresses: Vec<u16> = map.iter().map(|cell| cell.address).collect();
    for statement in statements.filter(|s| s.instruction.is_memory()) {
        assert!(!statement.indirect, "plain arguments alone");
        addresses.push(statement.argument);
    }
    addresses.sort_unstable();
    addresses.dedup();
    addresses
}

/// A shortest run of at most `bound` steps that ends by a code other than 0.
pub fn shortest_failing(set: &Set, map: &[Cell], bound: usize) -> Option<Vec<Choice>> {
    let addresses = addresses(set, map);
    let start = Machine::fresh(set, map.to_vec());
    let mut seen = HashSet::from([key(&start, &addresses)]);
    let mut reached = vec![(start, Vec::new())];
    for _ in 0..bound {
        let mut next = Vec::new();
        for (machine, run) in &reached {
            for (after, choice) in successors(machine) {
                let fails = matches!(after.end(), End::Code(code) if code != 0);
                if fails || seen.insert(key(&after, &addresses)) {
                    let mut longer: Vec<Choice> = run.clone();
                    longer.push(choice);
                    if fails {
                        return Some(longer);
                    }
                    next.push((after, longer));
                }
            }
        }
        reached = next;
    }
    None
}

/// The length of the longest run of at most `most` steps.
pub fn longest_run(set: &Set, map: &[Cell], most: usize) -> usize {
    let addresses = addresses(set, map);
    let mut reached = vec![Machine::fresh(set, map.to_vec())];
    for length in 0..most {
        let mut seen = HashSet::new();
        let next = reached.iter().flat_map(successors).map(|(after, _)| after);
        let next: Vec<Machine> = next
            .filter(|after| seen.insert(key(after, &addresses)))
            .collect();
        if next.is_empty() {
            return length;
        }
        reached = next;
    }
    most
}

fn successors<'a>(machine: &Machine<'a>) -> Vec<(Machine<'a>, Choice)> {
    machine
        .choices()
        .filter(|&choice| machine.permitted(choice))
        .map(|choice| {
            let mut after = machine.clone();
            after.step(choice).expect("the map has every cell read");
            (after, choice)
        })
        .collect()
}

/// The runs up to each thread's HALT with empty buffers, and the threads there. The set must have no
/// loop and no way to end but by HALT.
pub fn runs_to_halts(set: &Set, map: &[Cell]) -> Vec<(Vec<Choice>, Vec<Thread>)> {
    let mut runs = Vec::new();
    let mut waiting = vec![(Machine::fresh(set, map.to_vec()), Vec::new())];
    while let Some((machine, run)) = waiting.pop() {
        let mut going_on = successors(&machine);
        going_on.retain(|&(_, choice)| !is_halt(&machine, choice));
        if going_on.is_empty() {
            runs.push((run.clone(), machine.threads().to_vec()));
        }
        for (after, choice) in going_on {
            let mut longer: Vec<Choice> = run.clone();
            longer.push(choice);
            waiting.push((after, longer));
        }
    }
    runs
}

fn is_halt(machine: &Machine, choice: Choice) -> bool {
    match choice {
        Choice::Execute(thread) => machine.statement(thread).instruction == Halt,
        Choice::Flush(_) => false,
    }
}
