//! Random assignments of a table's choice bits and first cells: those of runs and damaged ones; and
//! what the machine says of an assignment.

use crate::Random;
use reference::{Assignment, Cell, Choice, End, Machine, Set};

/// What an assignment breaks first.
#[derive(Clone, Copy, Debug, PartialEq, Eq)]
pub enum Broken {
    /// Its first memory differs from the map at this cell.
    Cell(usize),
    /// The bits of this step are no permitted choice, or not none after the end.
    Step(usize),
    /// It is a run, but none that ends by a code other than 0 within the bound.
    Goal,
}

/// The machine's answer over a full memory; none where the assignment is that of a failing run.
pub fn broken(set: &Set, map: &[Cell], bound: usize, assignment: &Assignment) -> Option<Broken> {
    let differs = |cell: &Cell| assignment.first[usize::from(cell.address)] != cell.value;
    if let Some(cell) = map.iter().position(differs) {
        return Some(Broken::Cell(cell));
    }
    let mut machine = Machine::over(set, &assignment.first);
    for step in 0..bound {
        match (machine.end(), taken(assignment, step).as_slice()) {
            (End::Code(_), []) => {}
            (End::Open, &[choice]) if machine.permitted(choice) => {
                machine.step(choice).expect("the memory has every cell");
            }
            _ => return Some(Broken::Step(step)),
        }
    }
    match machine.end() {
        End::Code(code) if code != 0 => None,
        _ => Some(Broken::Goal),
    }
}

/// The choices whose bits are 1 in a step.
fn taken(assignment: &Assignment, step: usize) -> Vec<Choice> {
    let row = 2 * assignment.threads;
    assignment.bits[step * row..(step + 1) * row]
        .iter()
        .enumerate()
        .filter(|(_, &bit)| bit)
        .map(|(at, _)| choice_at(at, assignment.threads))
        .collect()
}

fn choice_at(at: usize, threads: usize) -> Choice {
    if at < threads {
        Choice::Execute(at)
    } else {
        Choice::Flush(at - threads)
    }
}

fn place_of(choice: Choice, threads: usize) -> usize {
    match choice {
        Choice::Execute(thread) => thread,
        Choice::Flush(thread) => threads + thread,
    }
}

/// "The bit that is 1 in a step names the choice the run takes there." Choices beyond the bound are
/// left out.
pub fn of_run(run: &[Choice], threads: usize, bound: usize, first: Vec<u16>) -> Assignment {
    let mut bits = vec![false; 2 * threads * bound];
    for (step, &choice) in run.iter().take(bound).enumerate() {
        bits[step * 2 * threads + place_of(choice, threads)] = true;
    }
    Assignment {
        threads,
        bits,
        first,
    }
}

/// A first memory that agrees with the map; elsewhere mostly small words, so that indirect words
/// reach the cells that others use.
pub fn first_memory(random: &mut Random, map: &[Cell]) -> Vec<u16> {
    let bound = random.pick(&[1, 4, 8, 65_536]);
    let mut first: Vec<u16> = (0..65_536).map(|_| random.below(bound) as u16).collect();
    for cell in map {
        first[usize::from(cell.address)] = cell.value;
    }
    first
}

/// A run of at most `bound` steps: it goes on until it ends, is stuck or has that many steps.
pub fn run(random: &mut Random, set: &Set, first: &[u16], bound: usize) -> Vec<Choice> {
    let mut machine = Machine::over(set, first);
    // Rare flushes keep buffers full, so that loads are forwarded.
    let flushes = random.pick(&[5, 30, 60]);
    let mut run = Vec::new();
    while run.len() < bound {
        let Some(choice) = next_choice(random, &machine, flushes) else {
            break;
        };
        machine.step(choice).expect("the memory has every cell");
        run.push(choice);
    }
    run
}

/// A permitted choice, a flush by this percentage.
pub fn next_choice(random: &mut Random, machine: &Machine, flushes: usize) -> Option<Choice> {
    let permitted = machine.choices().filter(|&c| machine.permitted(c));
    let (flushing, executing): (Vec<Choice>, Vec<Choice>) =
        permitted.partition(|choice| matches!(choice, Choice::Flush(_)));
    match (executing.is_empty(), flushing.is_empty()) {
        (true, true) => None,
        (false, true) => Some(random.pick(&executing)),
        (true, false) => Some(random.pick(&flushing)),
        (false, false) if random.chance(flushes) => Some(random.pick(&flushing)),
        (false, false) => Some(random.pick(&executing)),
    }
}

/// Ways to damage an assignment of a run.
#[derive(Clone, Copy, Debug, PartialEq, Eq)]
pub enum Damage {
    NoBit,
    TwoBits,
    OtherBit,
    BitAfterTheRun,
    AnyBit,
    RandomRows,
    OtherCell,
    MapCell,
}

impl Damage {
    pub const ALL: [Damage; 8] = [
        Damage::NoBit,
        Damage::TwoBits,
        Damage::OtherBit,
        Damage::BitAfterTheRun,
        Damage::AnyBit,
        Damage::RandomRows,
        Damage::OtherCell,
        Damage::MapCell,
    ];
}

/// Damages the assignment of a run of so many steps.
pub fn damage(
    random: &mut Random,
    damage: Damage,
    steps: usize,
    map: &[Cell],
    assignment: &mut Assignment,
) {
    let row = 2 * assignment.threads;
    let bound = assignment.bits.len() / row;
    let step = random.below(steps.clamp(1, bound));
    let bit = random.below(row);
    match damage {
        Damage::NoBit => assignment.bits[step * row..(step + 1) * row].fill(false),
        Damage::TwoBits => assignment.bits[step * row + bit] = true,
        Damage::OtherBit => {
            assignment.bits[step * row..(step + 1) * row].fill(false);
            assignment.bits[step * row + bit] = true;
        }
        Damage::BitAfterTheRun => {
            let after = random.between(steps.min(bound - 1), bound - 1);
            assignment.bits[after * row + bit] = true;
        }
        Damage::AnyBit => {
            let at = random.below(assignment.bits.len());
            assignment.bits[at] ^= true;
        }
        Damage::RandomRows => {
            for at in step * row..assignment.bits.len() {
                assignment.bits[at] = random.chance(100 / row);
            }
        }
        // Mostly a cell that statements name.
        Damage::OtherCell => {
            let address = random.pick(&[0, 1, 2, 3, 4, 5, 8, 255]);
            assignment.first[address] ^= random.pick(&[1, 2, 32_768]);
        }
        Damage::MapCell if map.is_empty() => {}
        Damage::MapCell => {
            let cell = random.pick(map);
            assignment.first[usize::from(cell.address)] ^= random.pick(&[1, 255, 32_768]);
        }
    }
}
