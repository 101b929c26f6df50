//! Decoding: the trace of an accepted model's run, by the second machine over the model's first
//! memory, and the map that the trace replays over.

use crate::check::{satisfies, Question};
use crate::records::{map_bytes, CELL_BYTES, MAX_GIVEN_MAP};
use crate::trace::{trace_step, STEP_BYTES};
use crate::{Cell, Choice, End, Machine, Memory, Model, Refusal, Set};
use std::collections::{BTreeMap, BTreeSet};

/// Bytes that the decoded map may need.
pub const MAP_ROOM: usize = MAX_GIVEN_MAP * CELL_BYTES;

/// How many trace steps and map cells were written.
#[derive(Clone, Copy, Debug, PartialEq, Eq)]
pub struct Decoded {
    pub steps: u16,
    pub cells: u16,
}

/// Writes the trace of the model's run to the front of `trace` and its map to the front of
/// `decoded_map`. A refusal leaves both as they were; `work` is as after a model check.
pub fn decode(
    set: &[u8],
    map: &[u8],
    bound: u64,
    model: &[u8],
    work: &mut [u8],
    trace: &mut [u8],
    decoded_map: &mut [u8],
) -> Result<Decoded, Refusal> {
    let question = Question::new(set, map, bound, model)?;
    if work.len() < question.work_needed()
        || trace.len() < question.bound * STEP_BYTES
        || decoded_map.len() < MAP_ROOM
    {
        return Err(Refusal::ROOM);
    }
    work.fill(0);
    satisfies(set, map, bound, &question)?;
    let (steps, cells) = follow(&question.set, &question.map, &question.model);
    let cell_bytes = map_bytes(&cells);
    trace[..steps.len()].copy_from_slice(&steps);
    decoded_map[..cell_bytes.len()].copy_from_slice(&cell_bytes);
    Ok(Decoded {
        steps: (steps.len() / STEP_BYTES) as u16,
        cells: cells.len() as u16,
    })
}

/// The trace's bytes and the map's cells. The model satisfies the table, so its run is permitted and
/// ends by a code other than 0.
fn follow(set: &Set, map: &[Cell], model: &Model) -> (Vec<u8>, Vec<Cell>) {
    let mut machine = Machine::start(set, Memory::full(model.cells.clone()));
    let mut trace = Vec::new();
    let mut firsts = FirstCells::new(map);
    for choice in model.run() {
        assert!(machine.permitted(choice), "the model satisfies");
        trace.extend_from_slice(&trace_step(&machine, choice));
        firsts.step(&mut machine, choice);
    }
    assert!(matches!(machine.end(), End::Code(code) if code != 0));
    (trace, firsts.cells())
}

/// "The set's cells and every first cell read (by a load not forwarded or a CAS, before any write to
/// it), with first values."
pub struct FirstCells {
    values: BTreeMap<u16, u16>,
    written: BTreeSet<u16>,
}

impl FirstCells {
    pub fn new(map: &[Cell]) -> FirstCells {
        FirstCells {
            values: map.iter().map(|cell| (cell.address, cell.value)).collect(),
            written: BTreeSet::new(),
        }
    }

    /// Takes a permitted choice and what it read first. The machine's memory has every cell.
    pub fn step(&mut self, machine: &mut Machine, choice: Choice) {
        let report = machine.step(choice).expect("the memory has every cell");
        let loads = [report.address_word, report.data_word];
        for loaded in loads.into_iter().flatten() {
            if !loaded.forwarded && !self.written.contains(&loaded.address) {
                self.values.insert(loaded.address, loaded.word);
            }
        }
        self.written.extend(report.written.map(|cell| cell.address));
    }

    /// Ascending.
    pub fn cells(self) -> Vec<Cell> {
        let cell = |(address, value)| Cell { address, value };
        self.values.into_iter().map(cell).collect()
    }
}

#[cfg(test)]
mod tests {
    use super::*;
    use crate::check::WORK_BYTES;
    use crate::records::set_bytes;
    use crate::Instruction::*;
    use crate::{replay, table_size, Ran, Statement};

    struct Outputs {
        trace: Vec<u8>,
        map: Vec<(u16, u16)>,
        code: u16,
    }

    fn cells(pairs: &[(u16, u16)]) -> Vec<Cell> {
        let cell = |&(address, value)| Cell { address, value };
        pairs.iter().map(cell).collect()
    }

    /// Decodes the model of a run with these cells for a bound one larger than the run, with bytes to
    /// spare, and replays.
    fn decoded(
        threads: &[Vec<Statement>],
        map: &[(u16, u16)],
        listed: &[(u16, u16)],
        schedule: &[u8],
    ) -> Outputs {
        let (set, map) = (set_bytes(threads), map_bytes(&cells(map)));
        let bound = schedule.len() + 1;
        let run: Vec<Choice> = schedule.iter().map(|&b| Choice::from_schedule(b)).collect();
        let model = Model::of_run(&run, threads.len(), bound, cells(listed)).bytes();
        let size = table_size(&set, &map, bound as u64).expect("accepted") as usize;
        let mut work = vec![7; size * WORK_BYTES + 9];
        let mut trace = vec![7; bound * STEP_BYTES + 9];
        let mut out = vec![7; MAP_ROOM + 9];
        let answer = decode(
            &set,
            &map,
            bound as u64,
            &model,
            &mut work,
            &mut trace,
            &mut out,
        )
        .expect("accepted");
        let steps = usize::from(answer.steps) * STEP_BYTES;
        let end = usize::from(answer.cells) * CELL_BYTES;
        assert_eq!(usize::from(answer.steps), schedule.len());
        assert!(trace[steps..].iter().all(|&byte| byte == 7));
        assert!(out[end..].iter().all(|&byte| byte == 7));
        assert!(work.iter().all(|&byte| byte == 0));
        trace.truncate(steps);
        out.truncate(end);
        let Ok(Ran {
            steps: replayed,
            end: End::Code(code),
        }) = replay(&set, &out, &trace)
        else {
            panic!("the trace replays over the decoded map");
        };
        assert_eq!(replayed, answer.steps);
        let word = |at: usize| u16::from_le_bytes([out[at], out[at + 1]]);
        let pairs = (0..end)
            .step_by(CELL_BYTES)
            .map(|at| (word(at), word(at + 2)));
        Outputs {
            map: pairs.collect(),
            trace,
            code,
        }
    }

    // Sample 3.
    #[test]
    fn the_first_failure() {
        let threads = [
            vec![
                Statement::new(Addi, 1),
                Statement::new(Store, 0),
                Statement::new(Halt, 0),
            ],
            vec![
                Statement::new(Load, 0),
                Statement::new(Jz, 3),
                Statement::new(Exit, 0),
                Statement::new(Exit, 7),
            ],
        ];
        let outputs = decoded(&threads, &[(0, 0)], &[], &[0, 0, 1, 1, 1]);
        assert_eq!((outputs.code, outputs.map), (7, vec![(0, 0)]));
        // The last step is EXIT 7 at pc 3.
        assert_eq!(outputs.trace[4 * STEP_BYTES..][..6], [1, 18, 3, 0, 7, 0]);
    }

    // I9 and I11: address words, a CAS that does not match, a cell that is only buffered by another
    // thread; not forwarded words, not cells written before, not the target of a STORE.
    #[test]
    fn which_cells_are_listed() {
        let one = [vec![
            Statement::indirect(Load, 9),
            Statement::new(Store, 20),
            Statement::new(Load, 20),
            Statement::indirect(Add, 20),
            Statement::new(Fence, 0),
            Statement::new(Load, 20),
            Statement::new(Cas, 30),
            Statement::new(Exit, 1),
        ]];
        // Cell 9 has 40, cell 40 has 50: the store puts 50 at 20, and ADD [20] loads cell 50.
        let listed = [(9, 40), (20, 3), (30, 8), (40, 50), (60, 1)];
        let schedule = [0, 0, 0, 0, 128, 0, 0, 0, 0];
        let outputs = decoded(&one, &[], &listed, &schedule);
        let expected = [(9, 40), (30, 8), (40, 50), (50, 0)];
        assert_eq!(outputs.map, expected);
        // The set's cells come whether read or not.
        let outputs = decoded(&one, &[(1, 0), (60, 1)], &listed, &schedule);
        let expected = [(1, 0), (9, 40), (30, 8), (40, 50), (50, 0), (60, 1)];
        assert_eq!(outputs.map, expected);

        let two = [
            vec![
                Statement::new(Store, 5),
                Statement::new(Load, 5),
                Statement::new(Halt, 0),
            ],
            vec![Statement::new(Load, 5), Statement::new(Exit, 2)],
        ];
        let outputs = decoded(&two, &[], &[(5, 6)], &[0, 0, 1, 1]);
        assert_eq!(outputs.map, [(5, 6)]);
        let outputs = decoded(&two, &[], &[(5, 6)], &[0, 0, 128, 1, 1]);
        assert_eq!(outputs.map, []);
    }

    /// 128 map cells and two first cells in each of 62 steps.
    #[test]
    fn the_most_cells() {
        let mut statements: Vec<Statement> = (0..31)
            .map(|pc| Statement::indirect(Load, 1_000 + pc))
            .collect();
        statements.push(Statement::new(Exit, 1));
        let mut other = statements.clone();
        for statement in &mut other {
            statement.argument += 100;
        }
        other[31] = Statement::new(Halt, 0);
        let map: Vec<(u16, u16)> = (0..128).map(|address| (address, 0)).collect();
        let firsts = (0..31).flat_map(|pc| [(1_000 + pc, 2_000 + pc), (1_100 + pc, 2_100 + pc)]);
        let mut listed: Vec<(u16, u16)> = map.iter().copied().chain(firsts).collect();
        listed.sort_unstable();
        let schedule = [vec![1; 31], vec![0; 32]].concat();
        let outputs = decoded(&[statements, other], &map, &listed, &schedule);
        assert_eq!(outputs.map.len(), 128 + 2 * 62);
    }

    #[test]
    fn room_is_asked_for_the_bound_and_256_cells() {
        let set = set_bytes(&[vec![Statement::new(Exit, 1)]]);
        let work_bytes = table_size(&set, &[], 2).expect("accepted") as usize * WORK_BYTES;
        for (work, trace, map, fits) in [
            (work_bytes, 48, 1_024, true),
            (work_bytes - 1, 48, 1_024, false),
            (work_bytes, 47, 1_024, false),
            (work_bytes, 48, 1_023, false),
        ] {
            let mut buffers = [vec![7; work], vec![7; trace], vec![7; map]];
            let [work, trace, map] = &mut buffers;
            for (model, answer) in [
                ([1, 0, 0, 0], Ok(Decoded { steps: 1, cells: 0 })),
                ([0, 0, 0, 0], Err(Refusal::not_satisfied(19))),
            ] {
                work.fill(7);
                trace.fill(7);
                let given = decode(&set, &[], 2, &model, work, trace, map);
                assert_eq!(given, if fits { answer } else { Err(Refusal::ROOM) });
                let end = if fits { 0 } else { 7 };
                assert!(work.iter().all(|&byte| byte == end));
                let written = given.map_or(0, |_| STEP_BYTES);
                assert!(trace[written..].iter().all(|&byte| byte == 7));
                assert!(map.iter().all(|&byte| byte == 7));
            }
        }
    }
}
