//! Random models with the sets, maps and bounds that they are for: those of failing runs, and ones
//! damaged in a bit, a cell or their form.

use crate::assignments::run;
use crate::judged::judged_over;
use crate::sets::Threads;
use crate::{damage, maps, sets, Random};
use reference::check::WORK_BYTES;
use reference::encode::MAX_BOUND;
use reference::records::{map_bytes, set_bytes, MAX_GIVEN_MAP, MAX_SET_MAP};
use reference::{accept_set, table_size, Cell, Choice, End, Machine, Memory, Model};

/// A run that ends by a code other than 0, and the model of it for a bound.
pub struct Failing {
    pub threads: Threads,
    pub map: Vec<Cell>,
    pub bound: usize,
    pub run: Vec<Choice>,
    pub model: Model,
}

/// Tries until a run fails.
pub fn failing(random: &mut Random) -> Failing {
    loop {
        let found = if random.chance(30) {
            judged_run(random)
        } else {
            exiting_run(random)
        };
        if let Some(failing) = found {
            return failing;
        }
    }
}

/// The code depends on a word.
fn judged_run(random: &mut Random) -> Option<Failing> {
    let mut cells = Vec::new();
    let judged = judged_over(random, |random, map| {
        cells = listed_cells(random, map);
        first_of(&cells)
    })?;
    Some(with_bound(
        random,
        judged.threads,
        judged.map,
        cells,
        judged.run,
    ))
}

fn exiting_run(random: &mut Random) -> Option<Failing> {
    let threads = sets::exiting(random);
    let mut map = maps::cells(random);
    map.truncate(random.pick(&[2, 20, MAX_SET_MAP]));
    let cells = listed_cells(random, &map);
    let set = accept_set(&set_bytes(&threads)).expect("an accepted set");
    let longest = random.pick(&[4, 16, 64]);
    let taken = run(random, &set, &first_of(&cells), longest);
    let mut machine = Machine::start(&set, Memory::full(cells.clone()));
    for &choice in &taken {
        machine.step(choice).expect("the memory has every cell");
    }
    let fails = matches!(machine.end(), End::Code(code) if code != 0);
    fails.then(|| with_bound(random, threads, map, cells, taken))
}

/// The bound is the run's length or more.
fn with_bound(
    random: &mut Random,
    threads: Threads,
    map: Vec<Cell>,
    cells: Vec<Cell>,
    run: Vec<Choice>,
) -> Failing {
    let more = random.pick(&[0, 0, 1, 2, 5, 30]);
    let bound = (run.len() + more).min(MAX_BOUND as usize);
    let model = Model::of_run(&run, threads.len(), bound, cells);
    Failing {
        threads,
        map,
        bound,
        run,
        model,
    }
}

/// The map's cells, but for some that are 0, and others, mostly at addresses that statements name.
fn listed_cells(random: &mut Random, map: &[Cell]) -> Vec<Cell> {
    let mut cells: Vec<Cell> = map
        .iter()
        .copied()
        .filter(|cell| cell.value != 0 || random.chance(50))
        .collect();
    let count = random.pick(&[0, 3, 8, 8, 20, MAX_GIVEN_MAP]);
    for _ in 0..count {
        if cells.len() == MAX_GIVEN_MAP {
            break;
        }
        let address = match random.below(3) {
            0 if count > 8 => random.word(),
            _ => random.below(count + 8) as u16,
        };
        let mapped = map.iter().any(|cell| cell.address == address);
        if !mapped && cells.iter().all(|cell| cell.address != address) {
            let value = random.pick(&[0, 1, 2, 3, 4, 5, 8, 255, 32_768, 65_535]);
            cells.push(Cell { address, value });
        }
    }
    cells.sort_unstable_by_key(|cell| cell.address);
    cells
}

/// By address.
fn first_of(cells: &[Cell]) -> Vec<u16> {
    let mut first = vec![0; 65_536];
    for cell in cells {
        first[usize::from(cell.address)] = cell.value;
    }
    first
}

// ---- damage

/// Ways to damage a model of a run so that it stays one by its form.
#[derive(Clone, Copy, Debug, PartialEq, Eq)]
pub enum Damage {
    FlippedBit,
    OtherChoice,
    RandomRows,
    OtherValue,
    LostCell,
    AddedCell,
}

impl Damage {
    pub const ALL: [Damage; 6] = [
        Damage::FlippedBit,
        Damage::OtherChoice,
        Damage::RandomRows,
        Damage::OtherValue,
        Damage::LostCell,
        Damage::AddedCell,
    ];
}

/// A model without cells may stay as it was.
pub fn damage_model(random: &mut Random, damage: Damage, model: &mut Model) {
    let row = 2 * model.threads;
    let bits = model.bits.len();
    let cells = &mut model.cells;
    match damage {
        Damage::FlippedBit => {
            let bit = random.below(bits);
            model.bits[bit] ^= true;
        }
        Damage::OtherChoice => {
            let steps = model.bits.iter().filter(|&&bit| bit).count();
            let start = random.below(steps.clamp(1, bits / row)) * row;
            model.bits[start..start + row].fill(false);
            model.bits[start + random.below(row)] = true;
        }
        Damage::RandomRows => {
            for bit in random.below(bits / row) * row..bits {
                model.bits[bit] = random.chance(100 / row);
            }
        }
        Damage::OtherValue if !cells.is_empty() => {
            let cell = random.below(cells.len());
            cells[cell].value ^= random.pick(&[1, 2, 255, 32_768]);
        }
        Damage::LostCell if !cells.is_empty() => {
            cells.remove(random.below(cells.len()));
        }
        Damage::AddedCell if cells.len() < MAX_GIVEN_MAP => {
            let (address, value) = (random.below(12) as u16, random.pick(&[0, 1, 7]));
            let found = cells.binary_search_by_key(&address, |cell| cell.address);
            if let Err(at) = found {
                cells.insert(at, Cell { address, value });
            }
        }
        _ => {}
    }
}

/// Damages the form of a model of so many bits.
fn damage_form(random: &mut Random, bits: usize, bytes: &mut Vec<u8>) {
    let cells = (bytes.len() - bits) / 4;
    match random.below(6) {
        0 => bytes[random.below(bits)] = random.pick(&[2, 3, 128, 255]),
        1 => bytes.truncate(random.below(bits)),
        2 => bytes.extend(vec![0; random.between(1, 3)]),
        3 if cells > 1 => {
            // The last two cells change places.
            let end = bytes.len();
            bytes[end - 8..].rotate_left(4);
        }
        4 if cells > 0 => {
            let last = bytes[bytes.len() - 4..].to_vec();
            bytes.extend(last);
        }
        _ => {
            bytes.truncate(bits);
            let beyond = MAX_GIVEN_MAP as u16 + 1;
            bytes.extend((0..beyond).flat_map(|address| (200 * address).to_le_bytes().repeat(2)));
        }
    }
}

// ---- inputs

/// What model check and decoding are given, but for work memory and outputs.
#[derive(Clone, Debug)]
pub struct ModelInput {
    pub set: Vec<u8>,
    pub map: Vec<u8>,
    pub bound: u64,
    pub model: Vec<u8>,
}

impl ModelInput {
    /// The model of the failing run.
    pub fn of(failing: &Failing) -> ModelInput {
        ModelInput {
            set: set_bytes(&failing.threads),
            map: map_bytes(&failing.map),
            bound: failing.bound as u64,
            model: failing.model.bytes(),
        }
    }

    /// Of a failing run, accepted or damaged anywhere.
    pub fn random(random: &mut Random, failing: &Failing) -> ModelInput {
        let mut input = ModelInput::of(failing);
        let bits = failing.model.bits.len();
        match random.below(20) {
            0..=5 => {}
            6..=14 => {
                let mut model = failing.model.clone();
                let kind = random.pick(&Damage::ALL);
                damage_model(random, kind, &mut model);
                input.model = model.bytes();
            }
            15 | 16 => damage_form(random, bits, &mut input.model),
            17 => damage::bytes(random, &mut input.set),
            18 => damage::bytes(random, &mut input.map),
            _ => {
                let beyond = [0, 65, 66, 256, 1 << 32, (1 << 32) + 1, u64::MAX];
                input.bound = match random.below(4) {
                    0 => input.bound - 1,
                    1 => input.bound + 1,
                    _ => random.pick(&beyond),
                };
            }
        }
        input
    }

    /// Bytes of work memory; 0 where there is no table.
    pub fn work_needed(&self) -> usize {
        let size = table_size(&self.set, &self.map, self.bound);
        size.map_or(0, |records| records as usize * WORK_BYTES)
    }
}
