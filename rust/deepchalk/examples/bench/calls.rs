//! Each call of the library beside the same call of the second implementation.

use crate::inputs::{self, Workload};
use crate::page::{columns, count, heading, ratio_row, whole};
use crate::texts;
use crate::timing::{side_by_side, Answer, Times, TIMINGS};
use deepchalk::{Refusal, FORMULA_BYTES, MAP_ROOM, STEP_BYTES};
use std::hint::black_box;
use testing::models::ModelInput;

fn answer<A>(answer: Result<A, Refusal>, number: impl Fn(A) -> u64) -> Answer {
    answer
        .map(number)
        .map_err(|refusal| (refusal.number(), refusal.place()))
}

fn second<A>(answer: Result<A, reference::Refusal>, number: impl Fn(A) -> u64) -> Answer {
    answer
        .map(number)
        .map_err(|refusal| (refusal.number, refusal.place))
}

// ---- the calls

pub fn read(text: &str) -> Times {
    let text = text.as_bytes();
    let read = reference::read(text, usize::MAX, usize::MAX).expect("an accepted text");
    let (set_room, map_room) = (read.set.len(), read.map.len());
    let (mut set, mut map) = (vec![0; set_room], vec![0; map_room]);
    side_by_side(
        || {
            let read = deepchalk::read(black_box(text), &mut set, &mut map);
            answer(read, |read| read.cells.into())
        },
        || {
            let read = reference::read(black_box(text), set_room, map_room);
            second(read, |read| read.map.len() as u64 / 4)
        },
    )
}

pub fn simulate(work: &Workload) -> Times {
    let mut trace = vec![0; work.schedule.len() * STEP_BYTES];
    let mut second_trace = trace.clone();
    side_by_side(
        || {
            let Workload {
                set, map, schedule, ..
            } = black_box(work);
            let ran = deepchalk::simulate(set, map, schedule, &mut trace);
            answer(ran, |ran| ran.steps.into())
        },
        || {
            let Workload {
                set, map, schedule, ..
            } = black_box(work);
            let ran = reference::simulate(set, map, schedule, &mut second_trace);
            second(ran, |ran| ran.steps.into())
        },
    )
}

pub fn replay(work: &Workload) -> Times {
    side_by_side(
        || {
            let Workload {
                set, map, trace, ..
            } = black_box(work);
            answer(deepchalk::replay(set, map, trace), |ran| ran.steps.into())
        },
        || {
            let Workload {
                set, map, trace, ..
            } = black_box(work);
            second(reference::replay(set, map, trace), |ran| ran.steps.into())
        },
    )
}

pub fn table_size(input: &ModelInput) -> Times {
    side_by_side(
        || {
            let ModelInput {
                set, map, bound, ..
            } = black_box(input);
            answer(deepchalk::table_size(set, map, *bound), u64::from)
        },
        || {
            let ModelInput {
                set, map, bound, ..
            } = black_box(input);
            second(reference::table_size(set, map, *bound), u64::from)
        },
    )
}

pub fn encode(input: &ModelInput) -> Times {
    let mut table = vec![0; records(input) * FORMULA_BYTES];
    let mut second_table = table.clone();
    side_by_side(
        || {
            let ModelInput {
                set, map, bound, ..
            } = black_box(input);
            answer(deepchalk::encode(set, map, *bound, &mut table), u64::from)
        },
        || {
            let ModelInput {
                set, map, bound, ..
            } = black_box(input);
            second(
                reference::encode(set, map, *bound, &mut second_table),
                u64::from,
            )
        },
    )
}

pub fn check(input: &ModelInput) -> Times {
    let mut work = vec![0; input.work_needed()];
    let mut second_work = work.clone();
    side_by_side(
        || {
            let ModelInput {
                set,
                map,
                bound,
                model,
            } = black_box(input);
            answer(deepchalk::check(set, map, *bound, model, &mut work), |()| 0)
        },
        || {
            let ModelInput {
                set,
                map,
                bound,
                model,
            } = black_box(input);
            second(
                reference::check(set, map, *bound, model, &mut second_work),
                |_| 0,
            )
        },
    )
}

pub fn decode(input: &ModelInput) -> Times {
    let steps = input.bound as usize * STEP_BYTES;
    let outputs = [input.work_needed(), steps, MAP_ROOM].map(|room| vec![0; room]);
    let [mut work, mut trace, mut cells] = outputs.clone();
    let [mut second_work, mut second_trace, mut second_cells] = outputs;
    side_by_side(
        || {
            let ModelInput {
                set,
                map,
                bound,
                model,
            } = black_box(input);
            let (work, trace, cells) = (&mut work, &mut trace, &mut cells);
            let decoded = deepchalk::decode(set, map, *bound, model, work, trace, cells);
            answer(decoded, |decoded| decoded.cells.into())
        },
        || {
            let ModelInput {
                set,
                map,
                bound,
                model,
            } = black_box(input);
            let (work, trace, cells) = (&mut second_work, &mut second_trace, &mut second_cells);
            let decoded = reference::decode(set, map, *bound, model, work, trace, cells);
            second(decoded, |decoded| decoded.cells.into())
        },
    )
}

/// Of the input's table.
pub fn records(input: &ModelInput) -> usize {
    let size = reference::table_size(&input.set, &input.map, input.bound);
    size.expect("an accepted set, map and bound") as usize
}

// ---- the table

pub fn print() {
    let explanation = format!(
        "Nanoseconds of one call, the median of {TIMINGS} timings taken in turn, and the ratio of the \
         library's to the second implementation's, the median over neighbouring timings."
    );
    heading("Calls beside the second implementation", &explanation);
    let names = ["Call", "Input", "library ns", "second ns", "ratio"];
    columns(2, &names);
    for (name, text) in [
        (
            "128 statements, 128 cells, comments and blanks",
            texts::full(32),
        ),
        ("the same without comments and blanks", texts::dense(32)),
        ("7 statements, 1 cell", texts::SMALL.to_string()),
    ] {
        let input = format!("{name}: {} bytes", count(text.len()));
        print_row("read", &input, read(&text));
    }
    for work in [
        inputs::store_loop(),
        inputs::memory_heavy(32),
        inputs::small(),
        inputs::checkpoints(),
        inputs::refused_late(),
    ] {
        print_row("simulate", work.name, simulate(&work));
        print_row("replay", work.name, replay(&work));
    }
    print_tables();
}

/// The calls that have to do with tables.
fn print_tables() {
    for (name, input) in [
        (
            "four threads of 32, map of 128 cells",
            inputs::failing(32, 64),
        ),
        (
            "four threads of 32, map of 128 cells",
            inputs::failing(32, 1),
        ),
        (
            "store-buffer litmus test with its outcome",
            inputs::litmus(),
        ),
    ] {
        let name = format!(
            "{name}, K {}: {} records",
            input.bound,
            count(records(&input))
        );
        print_row("table size", &name, table_size(&input));
        print_row("encode", &name, encode(&input));
        print_row("check", &name, check(&input));
        print_row("decode", &name, decode(&input));
    }
}

fn print_row(call: &str, input: &str, times: Times) {
    let cells = [
        call.to_string(),
        input.to_string(),
        whole(times.library),
        whole(times.second),
    ];
    ratio_row(&cells, times.ratio);
}
