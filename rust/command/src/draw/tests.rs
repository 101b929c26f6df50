//! Pictures: what they say is what the machine did, their words do not overlap, they are XML, and no
//! bytes make them fail.

mod markup;

use super::effects::{effects, Effect, Loaded};
use super::svg;
use markup::{check_xml, lines, texts};
use reference::machine;
use reference::records::{accept_map, accept_set, map_bytes, set_bytes, MAX_GIVEN_MAP};
use reference::trace::{choice_of, Step, MAX_STEPS, STEP_BYTES};
use reference::Instruction::*;
use reference::{Cell, Machine, Statement};
use testing::schedules::trace_of;
use testing::{Input, Random};

fn steps(trace: &[u8]) -> Vec<Option<Step>> {
    let records = trace.chunks_exact(STEP_BYTES);
    let step = |record: &[u8]| Step::from_bytes(record.try_into().unwrap());
    records.map(step).collect()
}

fn trace(steps: &[Step]) -> Vec<u8> {
    steps.iter().flat_map(|step| step.bytes()).collect()
}

// ---- what pictures say

/// Sample set of document 002, Intel 3: both threads store, then load the other's cell.
fn store_buffer_trace(schedule: &[u8]) -> Vec<u8> {
    let litmus = reference::litmus::intel().swap_remove(2).judged();
    trace_of(
        &set_bytes(&litmus.threads),
        &map_bytes(&litmus.map),
        schedule,
    )
}

#[test]
fn the_store_buffer_test_shows_the_old_cell() {
    let picture = svg(&store_buffer_trace(&[0, 0, 0, 1, 1, 1, 0, 1, 0, 1, 0]));
    let words: Vec<String> = texts(&picture).into_iter().map(|text| text.words).collect();
    for word in [
        "thread 0",
        "thread 1",
        "memory",
        "LOAD 1",
        "0 := 1",
        "cell 1 = 0",
    ] {
        assert!(words.iter().any(|words| words == word), "{word}");
    }
    // Thread 1 loads while thread 0's store waits, and both stores wait to the end.
    assert!(words.iter().any(|words| words == "cell 0 = 0 (old)"));
    let count = |word: &str| words.iter().filter(|words| *words == word).count();
    assert_eq!(count("not flushed"), 2);
    assert_eq!(count("exits with 1"), 1);
    assert!(picture.contains("<title>Run of 11 steps by 2 threads that exits with 1</title>"));
}

#[test]
fn a_flush_ends_the_store_and_writes_the_cell() {
    let picture = svg(&store_buffer_trace(&[0, 0, 128, 1, 1, 1]));
    assert!(picture.contains(">cell 0 := 1</text>"));
    assert!(picture.contains(">cell 0 = 1</text>"));
    assert!(!picture.contains("(old)"));
}

/// The set and the map are not in a trace; the machine that has them must agree with each effect.
#[test]
fn effects_are_the_machines() {
    let mut random = Random::new(1);
    let mut counts = [0; 3];
    for _ in 0..3000 {
        let input = Input::random(&mut random);
        let trace = trace_of(&input.set, &input.map, &input.schedule);
        let (Ok(set), Ok(map)) = (
            accept_set(&input.set),
            accept_map(&input.map, MAX_GIVEN_MAP),
        ) else {
            continue;
        };
        let mut machine = Machine::fresh(&set, map);
        for (record, effect) in trace.chunks_exact(STEP_BYTES).zip(effects(&steps(&trace))) {
            let step = Step::from_bytes(record.try_into().unwrap()).expect("a trace step");
            // The last step may read a lacking cell.
            let Ok(report) = machine.step(choice_of(record)) else {
                break;
            };
            agrees(step, effect, report);
            counts[0] += usize::from(report.data_word.is_some());
            counts[1] += usize::from(effect.data_word.is_some_and(|loaded| loaded.word.is_some()));
            counts[2] += usize::from(effect.data_word.is_some_and(|loaded| loaded.forwarded));
        }
    }
    let [loads, shown, forwarded] = counts;
    assert!(shown * 10 > loads * 8 && forwarded > 300, "{counts:?}");
}

fn agrees(step: Step, effect: Effect, report: machine::Report) {
    let known = |loaded: Option<Loaded>, actual: Option<machine::Loaded>| {
        let Some(loaded) = loaded else { return };
        let actual = actual.expect("the machine loads too");
        assert_eq!(loaded.forwarded, actual.forwarded);
        assert_eq!(loaded.address.unwrap_or(actual.address), actual.address);
        assert_eq!(loaded.word.unwrap_or(actual.word), actual.word);
    };
    known(effect.address_word, report.address_word);
    known(effect.data_word, report.data_word);
    // A CAS in the last step does not show whether it matched.
    if effect.written.is_some() || effect.matched.is_some() {
        assert_eq!(effect.written, report.written);
    }
    // All is known of loads with plain arguments but, sometimes, the word.
    let is_plain = step.statement.is_some_and(|statement| !statement.indirect);
    if let (true, Some(actual)) = (is_plain, report.data_word) {
        let loaded = effect.data_word.expect("a plain load");
        assert_eq!(loaded.address, Some(actual.address));
    }
}

// ---- how they look

/// Four threads in turn with the widest words and numbers. Buffers fill and empty as in a run.
fn widest(random: &mut Random) -> Vec<u8> {
    let mut full = [false; 4];
    let mut step = |at: usize| {
        let full = &mut full[at % 4];
        let statement = widest_statement(random, *full);
        let (address, value) = (65_535, 65_535);
        let step = Step {
            thread: (at % 4) as u8,
            statement,
            pc: 31,
            full: *full,
            accu: 65_535,
            mem: 65_535,
            adr: random.pick(&[65_534, 65_535]),
            val: 65_535,
            written: random.chance(50).then_some(Cell { address, value }),
        };
        let stores = statement.is_some_and(|statement| statement.instruction == Store);
        *full = (*full || stores) && statement.is_some();
        step
    };
    let mut steps: Vec<Step> = (0..MAX_STEPS).map(&mut step).collect();
    steps[MAX_STEPS - 1].statement = Some(Statement::new(Exit, 65_535));
    trace(&steps)
}

/// None is a flush.
fn widest_statement(random: &mut Random, full: bool) -> Option<Statement> {
    let jump = Statement::new(Jnzns, 65_535);
    let needs_empty = [Store, Cas].map(|word| Statement::indirect(word, 65_535));
    let others = [Load, Mem, Sub].map(|word| Statement::indirect(word, 65_535));
    match random.below(6) {
        0 => Some(jump),
        1 | 2 => Some(random.pick(&others)),
        _ if full => None,
        _ => Some(random.pick(&needs_empty)),
    }
}

/// Runs of 64 steps and 4 threads.
fn long_traces(random: &mut Random) -> Vec<Vec<u8>> {
    let mut traces: Vec<Vec<u8>> = (0..20).map(|_| widest(random)).collect();
    while traces.len() < 40 {
        let input = Input::random(random);
        let trace = trace_of(&input.set, &input.map, &input.schedule);
        let threads = steps(&trace).iter().flatten().map(|step| step.thread).max();
        if trace.len() == MAX_STEPS * STEP_BYTES && threads == Some(3) {
            traces.push(trace);
        }
    }
    traces
}

#[test]
fn words_do_not_overlap() {
    let mut random = Random::new(2);
    for trace in long_traces(&mut random) {
        let picture = svg(&trace);
        let texts = texts(&picture);
        assert!(texts.len() > 3 * MAX_STEPS);
        for (index, text) in texts.iter().enumerate() {
            let others = &texts[index + 1..];
            let other = others.iter().find(|other| text.overlaps(other));
            assert!(other.is_none(), "{text:?} and {other:?}");
            let line = lines(&picture).into_iter().find(|line| line.crosses(text));
            assert!(line.is_none(), "{text:?} and {line:?}");
            assert!(text.within(&picture), "{text:?}");
        }
    }
}

#[test]
fn pictures_are_xml() {
    let mut random = Random::new(3);
    for trace in long_traces(&mut random).iter().chain([&Vec::new()]) {
        assert_eq!(check_xml(&svg(trace)), Ok(()));
    }
    let broken = [
        "<a><b></a></b>",
        "<a x=1/>",
        "<a>&</a>",
        "<a>",
        "<a/><b/>",
        "<a>b<</a>",
    ];
    for markup in broken {
        assert!(check_xml(markup).is_err(), "{markup}");
    }
}

#[test]
fn any_bytes_make_a_picture() {
    let mut random = Random::new(4);
    for _ in 0..1000 {
        let mut trace = widest(&mut random);
        match random.below(3) {
            0 => trace = random.bytes(MAX_STEPS * STEP_BYTES),
            1 => {
                let length = random.below(trace.len() + 1);
                trace.truncate(length);
            }
            _ => {
                let at = random.below(trace.len());
                trace[at] = random.byte();
            }
        }
        assert_eq!(check_xml(&svg(&trace)), Ok(()));
    }
}
