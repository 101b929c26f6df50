//! The calls on `Set`, which allocate what they give, against the second reader, simulator, encoder and
//! decoder.

use deepchalk::{End, FailingRun, Part, Ran, Refusal, Set};
use reference::formula::operation;
use reference::records::MAX_SET_MAP;
use reference::trace::STEP_BYTES;
use testing::inputs::set_and_map;
use testing::models::{failing, ModelInput};
use testing::schedules::trace_of;
use testing::{damage, texts, Input, Random};

/// The refusal in the wrapper's type.
fn refusal(refusal: reference::Refusal) -> Refusal {
    Refusal::new(refusal.number, refusal.place).expect("1 to 17")
}

fn ran(ran: reference::Ran) -> Ran {
    let end = match ran.end {
        reference::End::Code(code) => End::Code(code),
        reference::End::Stuck => End::Stuck,
        reference::End::Open => End::Open,
    };
    Ran {
        steps: ran.steps,
        end,
    }
}

/// The second simulator's answer with the trace.
fn simulated(set: &[u8], map: &[u8], schedule: &[u8]) -> Result<(Vec<u8>, Ran), Refusal> {
    let mut trace = vec![0; schedule.len() * STEP_BYTES];
    let answer = reference::simulate(set, map, schedule, &mut trace);
    answer.map(|done| (trace, ran(done))).map_err(refusal)
}

#[test]
fn texts_and_records() {
    for seed in 1..=3_000 {
        let text = texts::any(&mut Random::new(seed));
        let read = reference::read(&text, usize::MAX, usize::MAX);
        let expected = read.map(|read| (read.set, read.map)).map_err(refusal);
        let set = Set::read(&text);
        let given = set
            .clone()
            .map(|s| (s.statements().to_vec(), s.map().to_vec()));
        assert_eq!(given, expected, "seed {seed}");
        if let Ok(set) = set {
            let again = Set::from_records(set.statements().to_vec(), set.map().to_vec());
            assert_eq!(again, Ok(set), "seed {seed}");
        }
    }
}

#[test]
fn runs() {
    for seed in 1..=6_000 {
        let mut random = Random::new(seed);
        let Input { set, map, schedule } = Input::random(&mut random);
        let accepted = reference::accept_set(&set).is_ok();
        let mapped = reference::accept_map(&map, MAX_SET_MAP).is_ok();
        let made = Set::from_records(set.clone(), map.clone());
        assert_eq!(made.is_ok(), accepted && mapped, "seed {seed}");
        let Ok(made) = made else {
            assert_eq!(made, Err(Refusal::Records));
            continue;
        };
        let expected = simulated(&set, &map, &schedule);
        assert_eq!(made.simulate(&schedule), expected, "seed {seed}");
        let mut trace = trace_of(&set, &map, &schedule);
        let replayed = |map: &[u8], trace: &[u8]| {
            reference::replay(&set, map, trace)
                .map(ran)
                .map_err(refusal)
        };
        assert_eq!(made.replay(&trace), replayed(&map, &trace), "seed {seed}");
        // Another map, accepted or not, and another trace.
        let mut other = map.clone();
        damage::map(&mut random, &mut other);
        let expected = simulated(&set, &other, &schedule);
        assert_eq!(
            made.simulate_over(&other, &schedule),
            expected,
            "seed {seed}"
        );
        damage::trace(&mut random, &mut trace);
        let expected = replayed(&other, &trace);
        assert_eq!(made.replay_over(&other, &trace), expected, "seed {seed}");
    }
}

#[test]
fn tables_and_models() {
    for seed in 1..=400 {
        let mut random = Random::new(seed);
        let found = failing(&mut random);
        for input in [
            ModelInput::of(&found),
            ModelInput::random(&mut random, &found),
        ] {
            if let Ok(set) = Set::from_records(input.set.clone(), input.map.clone()) {
                compare_models(&set, &input, seed);
            }
        }
    }
}

fn compare_models(set: &Set, input: &ModelInput, seed: u64) {
    let bound = input.bound;
    let size = reference::table_size(set.statements(), set.map(), bound).map_err(refusal);
    assert_eq!(set.table_size(bound), size, "seed {seed}");
    let table = size.map(|size| {
        let mut table = vec![0; size as usize * deepchalk::FORMULA_BYTES];
        let records = reference::encode(set.statements(), set.map(), bound, &mut table);
        assert_eq!(records, Ok(size));
        table
    });
    assert_eq!(set.encode(bound), table, "seed {seed}");

    let mut work = vec![0; input.work_needed()];
    let mut trace = vec![0; deepchalk::MAX_STEPS * STEP_BYTES];
    let mut map = vec![0; deepchalk::MAP_ROOM];
    let decoded = reference::decode(
        set.statements(),
        set.map(),
        bound,
        &input.model,
        &mut work,
        &mut trace,
        &mut map,
    );
    let expected = decoded.map_err(refusal).map(|decoded| FailingRun {
        trace: trace[..usize::from(decoded.steps) * STEP_BYTES].to_vec(),
        map: map[..usize::from(decoded.cells) * deepchalk::CELL_BYTES].to_vec(),
    });
    let checked = expected.as_ref().map(|_| ()).map_err(|refusal| *refusal);
    assert_eq!(set.check(bound, &input.model), checked, "seed {seed}");
    let run = set.decode(bound, &input.model);
    assert_eq!(run, expected, "seed {seed}");
    if let Ok(FailingRun { trace, map }) = run {
        let ran = set.replay_over(&map, &trace).expect("a run");
        assert!(matches!(ran.end, End::Code(code) if code != 0));
    }
}

/// What each constraint and the goal of a table belong to, told from its records: the map's constraints come
/// before any choice bit, in the order of the cells, and a step's after its own choice bits.
fn demands(set: &Set, bound: u64) -> Vec<(u32, Part)> {
    let table = set.encode(bound).expect("accepted");
    let mut cells = set.map().chunks_exact(deepchalk::CELL_BYTES);
    let mut step = None;
    let mut found = Vec::new();
    for (record, formula) in (0..).zip(reference::formulas(&table)) {
        match (formula.operation, step) {
            (operation::CHOICE, _) => step = Some(formula.a),
            (operation::GOAL, _) => found.push((record, Part::Goal)),
            (operation::CONSTRAINT, Some(step)) => found.push((record, Part::Step(step))),
            (operation::CONSTRAINT, None) => {
                let cell = cells.next().expect("a cell");
                let address = u16::from_le_bytes([cell[0], cell[1]]);
                found.push((record, Part::Map { address }));
            }
            _ => {}
        }
    }
    found
}

#[test]
fn parts_of_tables() {
    let mut counted = [0; 3];
    for seed in 1..=300 {
        let mut random = Random::new(seed);
        let (set, map) = set_and_map(&mut random);
        let Ok(set) = Set::from_records(set, map) else {
            continue;
        };
        let bound = 1 + random.below(64) as u64;
        let records = set.table_size(bound).expect("a size");
        for (record, part) in demands(&set, bound) {
            assert_eq!(set.part_of(bound, record), Ok(Some(part)), "seed {seed}");
            counted[match part {
                Part::Start => panic!("seed {seed}: a constraint of start values"),
                Part::Map { .. } => 0,
                Part::Step(_) => 1,
                Part::Goal => 2,
            }] += 1;
        }
        assert_eq!(set.part_of(bound, 0), Ok(Some(Part::Start)));
        assert_eq!(set.part_of(bound, records), Ok(None));
        assert_eq!(set.part_of(65, 0), Err(Refusal::Bound));
    }
    assert!(counted.iter().all(|&count| count > 100), "{counted:?}");
}

/// Schedules and traces of any length are refused, not run into.
#[test]
fn long_schedules_and_traces() {
    let set = Set::read(b"JMP 0\n.\n").expect("accepted");
    for length in [65, 1_000, 100_000] {
        assert_eq!(set.simulate(&vec![0; length]), Err(Refusal::Length));
        assert_eq!(set.replay(&vec![0; length]), Err(Refusal::Length));
    }
    assert!(set.simulate(&[0; 64]).is_ok());
    for bound in [0, 65, u64::MAX] {
        assert_eq!(set.encode(bound), Err(Refusal::Bound));
        assert_eq!(set.check(bound, &[]), Err(Refusal::Bound));
        assert_eq!(set.decode(bound, &[]), Err(Refusal::Bound));
    }
}
