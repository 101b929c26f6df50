//! The second model check and decoder against the second machine and the second replay: models of
//! failing runs and damaged ones.
//! A failure prints its seed.

use reference::check::WORK_BYTES;
use reference::decode::MAP_ROOM;
use reference::records::{map_bytes, CELL_BYTES};
use reference::trace::{trace_step, STEP_BYTES};
use reference::{
    accept_map, accept_model, check, decode, replay, Assignment, Decoded, End, Machine, Ran,
    Refusal, Set,
};
use std::collections::BTreeMap;
use testing::assignments::Broken;
use testing::models::{damage_model, failing, Damage, Failing, ModelInput};
use testing::tables::Table;
use testing::Random;

const RUNS: u64 = 2_500;

/// The answer with the trace and the map that were written.
type Answer = Result<(Decoded, Vec<u8>, Vec<u8>), Refusal>;

/// Checks and decodes with room to spare. Both must answer the same; work memory is 0 afterwards where
/// the input is accepted up to 11, and outputs hold what was written alone.
fn decoded(input: &ModelInput) -> Answer {
    let ModelInput {
        set,
        map,
        bound,
        model,
    } = input;
    let needed = input.work_needed();
    let mut work = vec![0xa5; needed + 40];
    let checked = check(set, map, *bound, model, &mut work);
    let mut second_work = vec![0x5a; needed + 7];
    let mut trace = vec![0xee; *bound as usize * STEP_BYTES + 11];
    let mut cells = vec![0xee; MAP_ROOM + 5];
    let answer = decode(
        set,
        map,
        *bound,
        model,
        &mut second_work,
        &mut trace,
        &mut cells,
    );
    assert_eq!(answer.map(|_| ()), checked);
    let past = !matches!(checked, Err(refusal) if refusal.number != 16);
    let all = |bytes: &[u8], byte| bytes.iter().all(|&b| b == byte);
    assert!(all(&work, if past { 0 } else { 0xa5 }));
    assert!(all(&second_work, if past { 0 } else { 0x5a }));
    let (steps, count) = answer.map_or((0, 0), |d| (d.steps, d.cells));
    let beyond_trace = trace.split_off(usize::from(steps) * STEP_BYTES);
    let beyond_map = cells.split_off(usize::from(count) * CELL_BYTES);
    assert!(all(&beyond_trace, 0xee) && all(&beyond_map, 0xee));
    answer.map(|decoded| (decoded, trace, cells))
}

/// The trace of the model's run over the whole memory, and its code.
fn run_of(set: &Set, assignment: &Assignment, input: &ModelInput) -> (Vec<u8>, u16) {
    let bound = input.bound as usize;
    let model = accept_model(&input.model, set.threads.len(), bound).expect("accepted");
    let mut machine = Machine::over(set, &assignment.first);
    let mut trace = Vec::new();
    for choice in model.run() {
        trace.extend_from_slice(&trace_step(&machine, choice));
        machine.step(choice).expect("the memory has every cell");
    }
    match machine.end() {
        End::Code(code) => (trace, code),
        end => panic!("the run is {end:?}"),
    }
}

/// The decoded trace and map are those of the assignment's run: the trace replays over the map to the
/// run's code and count, the map has the set's cells and first values, and without any other of its
/// cells the trace does not replay.
fn is_own_run(table: &Table, assignment: &Assignment, input: &ModelInput, seed: u64) {
    let (decoded, trace, map) = decoded(input).expect("accepted");
    let (expected, code) = run_of(&table.set, assignment, input);
    assert_eq!(trace, expected, "seed {seed}");
    let ran = Ran {
        steps: decoded.steps,
        end: End::Code(code),
    };
    assert_eq!(usize::from(ran.steps) * STEP_BYTES, trace.len());
    assert_eq!(replay(&input.set, &map, &trace), Ok(ran), "seed {seed}");
    let cells = accept_map(&map, 256).expect("a map");
    assert!(table.map.iter().all(|cell| cells.contains(cell)));
    for (at, cell) in cells.iter().enumerate() {
        assert_eq!(cell.value, assignment.first[usize::from(cell.address)]);
        if !table.map.contains(cell) {
            let mut fewer = cells.clone();
            fewer.remove(at);
            let answer = replay(&input.set, &map_bytes(&fewer), &trace);
            assert!(
                matches!(answer, Err(refusal) if refusal.number == 14),
                "seed {seed}: cell {} is not read first",
                cell.address
            );
        }
    }
}

#[derive(Default)]
struct Counts(BTreeMap<String, usize>);

impl Counts {
    fn add(&mut self, made: &str, broken: Option<Broken>) {
        let answer = match broken {
            None => "accepted",
            Some(Broken::Cell(_)) => "16 at a map constraint",
            Some(Broken::Step(_)) => "16 at a step's constraint",
            Some(Broken::Goal) => "16 at the goal",
        };
        *self.0.entry(format!("{made}: {answer}")).or_default() += 1;
    }

    fn demand(&self, at_least: usize, each: &[&str]) {
        for (what, count) in &self.0 {
            println!("{count:>10}  {what}");
        }
        assert!(self.0.values().sum::<usize>() >= at_least);
        for &what in each {
            assert!(self.0.contains_key(what), "no model was \"{what}\"");
        }
    }
}

/// Models of failing runs are accepted and decode to their run. Damaged ones are accepted exactly where
/// the machine says that they are failing runs, and then decode to those; else 16 is at the record that
/// the machine's answer names.
#[test]
fn models_mean_runs() {
    let mut counts = Counts::default();
    for seed in 1..=RUNS {
        let mut random = Random::new(seed);
        let found = failing(&mut random);
        let mut table = Table::new(&found.threads, found.map.clone(), found.bound);
        table.seed = seed;
        let assignment = found.model.assignment();
        assert_eq!(table.judge(&assignment), None);
        is_own_run(&table, &assignment, &ModelInput::of(&found), seed);
        counts.add("run", None);
        for _ in 0..4 {
            let kind = random.pick(&Damage::ALL);
            let broken = judge_damaged(&mut random, &table, &found, kind);
            counts.add(&format!("{kind:?}"), broken);
        }
    }
    counts.demand(
        10_000,
        &[
            "FlippedBit: 16 at a step's constraint",
            "OtherChoice: accepted",
            "OtherChoice: 16 at a step's constraint",
            "OtherChoice: 16 at the goal",
            "RandomRows: 16 at a step's constraint",
            "OtherValue: accepted",
            "OtherValue: 16 at a map constraint",
            "OtherValue: 16 at the goal",
            "LostCell: accepted",
            "LostCell: 16 at a map constraint",
            "LostCell: 16 at the goal",
            "AddedCell: accepted",
            "AddedCell: 16 at the goal",
        ],
    );
}

fn judge_damaged(
    random: &mut Random,
    table: &Table,
    found: &Failing,
    kind: Damage,
) -> Option<Broken> {
    let mut model = found.model.clone();
    damage_model(random, kind, &mut model);
    let assignment = model.assignment();
    let mut input = ModelInput::of(found);
    input.model = model.bytes();
    let broken = table.judge(&assignment);
    match broken {
        None => is_own_run(table, &assignment, &input, table.seed),
        Some(broken) => {
            let expected = Refusal::not_satisfied(table.record_of(broken));
            let refusal = decoded(&input).expect_err("not accepted");
            assert_eq!(refusal, expected, "seed {}", table.seed);
        }
    }
    broken
}

/// Inputs damaged anywhere reach every refusal.
#[test]
fn every_refusal() {
    let mut answers = [0; 18];
    for seed in 1..=RUNS {
        let mut random = Random::new(seed);
        let found = failing(&mut random);
        for _ in 0..3 {
            let mut input = ModelInput::random(&mut random, &found);
            // Outputs are made for the bound.
            input.bound = input.bound.min(1_000);
            let number = decoded(&input).map_or_else(|refusal| refusal.number, |_| 0);
            answers[usize::from(number)] += 1;
        }
    }
    println!("answers by refusal: {answers:?}");
    for number in [0, 9, 10, 15, 16] {
        assert!(answers[number] > 50, "few answers {number}");
    }
}

/// One length below what is needed: 11, and no byte changes.
#[test]
fn short_buffers() {
    let mut random = Random::new(11);
    for _ in 0..200 {
        let found = failing(&mut random);
        let ModelInput {
            set,
            map,
            bound,
            model,
        } = ModelInput::of(&found);
        let needed = ModelInput::of(&found).work_needed();
        assert_eq!(needed % WORK_BYTES, 0);
        let rooms = [needed, found.bound * STEP_BYTES, MAP_ROOM];
        let mut short = vec![0xa5; needed - 1];
        let refused = check(&set, &map, bound, &model, &mut short);
        assert_eq!(refused, Err(Refusal::ROOM));
        assert!(short.iter().all(|&byte| byte == 0xa5));
        for lacking in 0..3 {
            let mut buffers = rooms.map(|room| vec![0xa5; room]);
            let length = random.pick(&[rooms[lacking] - 1, rooms[lacking] / 2, 0]);
            buffers[lacking].truncate(length);
            let [work, trace, cells] = &mut buffers;
            let refused = decode(&set, &map, bound, &model, work, trace, cells);
            assert_eq!(refused, Err(Refusal::ROOM));
            assert!(buffers.iter().flatten().all(|&byte| byte == 0xa5));
        }
    }
}
