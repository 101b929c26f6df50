//! A real solver on the tables of document 002's litmus tests and of its faulty counter. Its verdicts
//! are those of exhaustive search at the same bounds; its models come back through model check,
//! decoding and replay. Skipped where z3 is not installed.

use reference::decode::MAP_ROOM;
use reference::litmus::{amd, faulty_counters, intel, Litmus, Sample};
use reference::records::{map_bytes, set_bytes, CELL_BYTES};
use reference::search::shortest_failing;
use reference::trace::STEP_BYTES;
use reference::{check, decode, replay, End, Ran};
use testing::models::ModelInput;
use testing::solver::{installed, solve, Verdict};
use testing::tables::Table;

/// The steps and the code of the run that the model is decoded to and that is replayed.
fn returned(input: &ModelInput) -> Ran {
    let ModelInput {
        set,
        map,
        bound,
        model,
    } = input;
    let mut work = vec![0xa5; input.work_needed()];
    assert_eq!(check(set, map, *bound, model, &mut work), Ok(()));
    let mut trace = vec![0; *bound as usize * STEP_BYTES];
    let mut cells = vec![0; MAP_ROOM];
    let decoded = decode(set, map, *bound, model, &mut work, &mut trace, &mut cells)
        .expect("an accepted model");
    trace.truncate(usize::from(decoded.steps) * STEP_BYTES);
    cells.truncate(usize::from(decoded.cells) * CELL_BYTES);
    let ran = replay(set, &cells, &trace).expect("a trace");
    assert_eq!(ran.steps, decoded.steps);
    ran
}

/// The length of the run that the solver found for the bound, if it found one. Its code is 1.
fn solved(sample: &Sample, bound: usize) -> Option<usize> {
    let table = Table::new(&sample.threads, sample.map.clone(), bound);
    match solve(&table) {
        Verdict::Unsatisfiable => None,
        Verdict::Satisfiable(model) => {
            let ran = returned(&ModelInput {
                set: set_bytes(&sample.threads),
                map: map_bytes(&sample.map),
                bound: bound as u64,
                model: model.bytes(),
            });
            assert_eq!(ran.end, End::Code(1));
            Some(usize::from(ran.steps))
        }
    }
}

/// At a bound that no run exceeds; where the outcome is allowed also at the length of the shortest run
/// with it and at one less.
fn agree(litmus: &[Litmus]) {
    for litmus in litmus {
        let (sample, name) = (litmus.judged(), litmus.name);
        let set = reference::accept_set(&set_bytes(&sample.threads)).expect("an accepted set");
        let bound = litmus.judged_bound();
        let found = solved(&sample, bound);
        assert_eq!(found.is_some(), litmus.allowed, "{name}");
        match shortest_failing(&set, &sample.map, bound) {
            None => assert_eq!(found, None, "{name}"),
            Some(run) => {
                let length = run.len();
                assert!(found.is_some_and(|steps| steps >= length), "{name}");
                assert_eq!(solved(&sample, length), Some(length), "{name}");
                assert_eq!(solved(&sample, length - 1), None, "{name}");
            }
        }
    }
}

// In two tests, which run side by side: four threads take long.
#[test]
fn litmus_tests_1_to_6_of_intel() {
    if installed("solver: litmus tests 1 to 6 of Intel") {
        agree(&intel()[..6]);
    }
}

#[test]
fn litmus_tests_7_to_10_of_intel() {
    if installed("solver: litmus tests 7 to 10 of Intel") {
        agree(&intel()[6..]);
    }
}

/// Those that are not among Intel's.
#[test]
fn litmus_tests_of_amd() {
    if installed("solver: litmus tests of AMD") {
        let others: Vec<Vec<u8>> = intel().iter().map(judged_set).collect();
        let mut litmus = amd();
        litmus.retain(|litmus| !others.contains(&judged_set(litmus)));
        assert_eq!(litmus.len(), 4);
        agree(&litmus);
    }
}

fn judged_set(litmus: &Litmus) -> Vec<u8> {
    set_bytes(&litmus.judged().threads)
}

/// Two threads that count to two each lose a count: at the bound of document 002, and at the length of
/// the shortest such run.
#[test]
fn the_faulty_counter() {
    if !installed("solver: the faulty counter") {
        return;
    }
    let counter = faulty_counters().swap_remove(0);
    let set = reference::accept_set(&set_bytes(&counter.sample.threads)).expect("an accepted set");
    let shortest = shortest_failing(&set, &counter.sample.map, counter.bound);
    let length = shortest.expect("it fails").len();
    assert_eq!(length, 9 * 4 + 5);
    for bound in [counter.bound, length] {
        let steps = solved(&counter.sample, bound).expect("it fails");
        assert!((length..=bound).contains(&steps));
    }
}
