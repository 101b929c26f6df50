//! A real solver between the library's calls: the tables that the library encodes for litmus tests
//! with allowed outcomes and for the faulty counter go to z3, and its models come back through the
//! library's model check, decoding and replay. Skipped where z3 is not installed.

use deepchalk::{
    check, decode, encode, replay, table_size, End, Ran, CELL_BYTES, FORMULA_BYTES, MAP_ROOM,
    STEP_BYTES, WORK_BYTES,
};
use reference::formulas;
use reference::litmus::{amd, faulty_counters, intel, Sample};
use reference::records::{map_bytes, set_bytes};
use testing::solver::{installed, solve, Verdict};
use testing::tables::Table;

/// From the set to the replayed run, by the library but for the solver.
fn solved(sample: Sample, bound: usize) -> Ran {
    let (set, map) = (set_bytes(&sample.threads), map_bytes(&sample.map));
    let size = table_size(&set, &map, bound as u64).expect("an accepted set and map");
    let mut bytes = vec![0; size as usize * FORMULA_BYTES];
    assert_eq!(encode(&set, &map, bound as u64, &mut bytes), Ok(size));
    let mut table = Table::new(&sample.threads, sample.map, bound);
    table.formulas = formulas(&bytes);
    let Verdict::Satisfiable(model) = solve(&table) else {
        panic!("no run fails");
    };

    let model = model.bytes();
    let mut work = vec![0xa5; size as usize * WORK_BYTES];
    let checked = check(&set, &map, bound as u64, &model, &mut work);
    assert_eq!(checked, Ok(()));
    let mut trace = vec![0; bound * STEP_BYTES];
    let mut cells = vec![0; MAP_ROOM];
    let decoded = decode(
        &set,
        &map,
        bound as u64,
        &model,
        &mut work,
        &mut trace,
        &mut cells,
    )
    .expect("an accepted model");
    trace.truncate(usize::from(decoded.steps) * STEP_BYTES);
    cells.truncate(usize::from(decoded.cells) * CELL_BYTES);
    let ran = replay(&set, &cells, &trace).expect("a trace");
    assert_eq!(ran.steps, decoded.steps);
    ran
}

#[test]
fn models_come_back() {
    if !installed("solver: the library's calls") {
        return;
    }
    let litmus = intel().into_iter().chain(amd());
    let mut samples: Vec<(Sample, usize)> = litmus
        .filter(|litmus| litmus.allowed)
        .map(|litmus| (litmus.judged(), litmus.judged_bound()))
        .collect();
    let counter = faulty_counters().swap_remove(0);
    samples.push((counter.sample, counter.bound));
    for (sample, bound) in samples {
        let ran = solved(sample, bound);
        assert_eq!(ran.end, End::Code(1));
        assert!(usize::from(ran.steps) <= bound);
    }
}
