//! The library against the second simulator on every byte of records, schedules and traces changed,
//! every length, and every size of map and output around its bound.

mod compare;

use compare::Comparison;
use reference::records::{map_bytes, set_bytes};
use reference::trace::{MAX_STEPS, STEP_BYTES};
use reference::Instruction::*;
use reference::{Cell, Refusal, Statement};
use testing::schedules::trace_of;

/// Three threads with all twenty instructions, indirect words and a checkpoint of two threads.
fn set() -> Vec<u8> {
    let new = Statement::new;
    set_bytes(&[
        vec![
            new(Load, 1),
            new(Addi, 2),
            Statement::indirect(Store, 1),
            new(Check, 5),
            Statement::indirect(Load, 2),
            new(Fence, 0),
            new(Jnz, 0),
            new(Halt, 0),
        ],
        vec![
            new(Mem, 0),
            new(Addi, 1),
            new(Cas, 0),
            new(Jz, 0),
            new(Check, 5),
            new(Mul, 1),
            new(Sub, 2),
            new(Subi, 1),
            new(Muli, 3),
            new(Jns, 0),
            new(Exit, 9),
        ],
        vec![
            new(Add, 3),
            new(Js, 4),
            new(Jnzns, 0),
            new(Check, 256),
            new(Jmp, 0),
        ],
    ])
}

fn cells(count: u16) -> Vec<u8> {
    let cells: Vec<Cell> = (0..count)
        .map(|address| Cell {
            address,
            value: address % 3,
        })
        .collect();
    map_bytes(&cells)
}

/// 64 permitted steps over `set()` and `cells(8)`: each time the first permitted choice after the
/// last one taken.
fn schedule() -> Vec<u8> {
    let set = reference::accept_set(&set()).unwrap();
    let map = reference::accept_map(&cells(8), 256).unwrap();
    let mut machine = reference::Machine::fresh(&set, map);
    let choices: Vec<reference::Choice> = machine.choices().collect();
    let mut schedule = Vec::new();
    let mut at = 0;
    while schedule.len() < MAX_STEPS {
        let choice = choices[at % choices.len()];
        if machine.permitted(choice) {
            machine.step(choice).unwrap();
            schedule.push(choice.schedule_byte());
        }
        at += 1;
    }
    schedule
}

/// Compares simulation with the room that it asks.
fn simulate(comparison: &mut Comparison, set: &[u8], map: &[u8], schedule: &[u8]) {
    let _ = comparison.simulate(set, map, schedule, schedule.len() * STEP_BYTES);
}

#[test]
fn every_value_of_every_set_byte() {
    let (set, map, schedule) = (set(), cells(8), schedule());
    let trace = trace_of(&set, &map, &schedule);
    let mut comparison = Comparison::new();
    for at in 0..set.len() {
        for value in 0..=255 {
            let mut damaged = set.clone();
            damaged[at] = value;
            simulate(&mut comparison, &damaged, &map, &schedule[..12]);
            if value % 16 == 1 {
                let _ = comparison.replay(&damaged, &map, &trace);
            }
        }
    }
}

#[test]
fn every_length_of_a_set_and_a_map() {
    let (set, map, schedule) = (set(), cells(8), schedule());
    let trace = trace_of(&set, &map, &schedule);
    let mut comparison = Comparison::new();
    let mut longer = set.clone();
    longer.extend_from_slice(&set);
    for length in 0..longer.len() {
        simulate(&mut comparison, &longer[..length], &map, &schedule);
        let _ = comparison.replay(&longer[..length], &map, &trace);
    }
    let many = cells(258);
    for length in 0..many.len() {
        simulate(&mut comparison, &set, &many[..length], &schedule[..20]);
        let _ = comparison.replay(&set, &many[..length], &trace);
    }
}

#[test]
fn every_value_of_every_map_byte() {
    let (set, map, schedule) = (set(), cells(20), schedule());
    let trace = trace_of(&set, &map, &schedule);
    let mut comparison = Comparison::new();
    for at in 0..map.len() {
        for value in 0..=255 {
            let mut damaged = map.clone();
            damaged[at] = value;
            simulate(&mut comparison, &set, &damaged, &schedule[..20]);
            if value % 16 == 1 {
                let _ = comparison.replay(&set, &damaged, &trace);
            }
        }
    }
}

#[test]
fn maps_of_256_and_257_cells() {
    let (set, schedule) = (set(), schedule());
    let mut comparison = Comparison::new();
    let room = schedule.len() * STEP_BYTES;
    let most = cells(256);
    let ran = comparison.simulate(&set, &most, &schedule, room);
    assert!(ran.is_ok());
    let trace = trace_of(&set, &most, &schedule);
    assert_eq!(comparison.replay(&set, &most, &trace), ran);
    let one_more = cells(257);
    let refused = comparison.simulate(&set, &one_more, &schedule, room);
    assert_eq!(refused, Err(Refusal::RECORDS));
    let refused = comparison.replay(&set, &one_more, &trace);
    assert_eq!(refused, Err(Refusal::RECORDS));
    // The last cell of a full map is known too, and a written cell beyond it.
    let far = set_bytes(&[vec![
        Statement::new(Load, 255),
        Statement::new(Store, 65_535),
        Statement::new(Fence, 0),
        Statement::new(Load, 65_535),
        Statement::new(Load, 256),
        Statement::new(Halt, 0),
    ]]);
    let run = [0, 0, 128, 0, 0, 0];
    let refused = comparison.simulate(&far, &most, &run, 144);
    assert_eq!(refused, Err(Refusal::lacks_cell(5)));
    assert!(comparison.simulate(&far, &most, &run[..5], 144).is_ok());
}

#[test]
fn every_schedule_byte_at_every_step() {
    let (set, map, schedule) = (set(), cells(8), schedule());
    let mut comparison = Comparison::new();
    for step in 0..schedule.len() {
        for byte in 0..=255 {
            let mut changed = schedule.clone();
            changed[step] = byte;
            simulate(&mut comparison, &set, &map, &changed);
        }
    }
    for length in 0..=schedule.len() {
        simulate(&mut comparison, &set, &map, &schedule[..length]);
    }
    for length in [65, 66, 128, 255, 256, 257, 1000, 65_536 + 3] {
        let long: Vec<u8> = schedule.iter().copied().cycle().take(length).collect();
        simulate(&mut comparison, &set, &map, &long);
        let _ = comparison.simulate(&set, &map, &long, 0);
    }
}

#[test]
fn every_byte_of_a_trace_of_64_steps() {
    let (set, map, schedule) = (set(), cells(8), schedule());
    let trace = trace_of(&set, &map, &schedule);
    assert_eq!(trace.len(), MAX_STEPS * STEP_BYTES);
    let mut comparison = Comparison::new();
    for at in 0..trace.len() {
        let byte = trace[at];
        let mut values: Vec<u8> = (0..8).map(|bit| byte ^ (1 << bit)).collect();
        values.extend([0, 1, 2, 3, 4, 19, 20, 21, 127, 130, 131, 132, 255]);
        values.extend([byte.wrapping_add(1), byte.wrapping_sub(1)]);
        for value in values {
            let mut damaged = trace.clone();
            damaged[at] = value;
            let answer = comparison.replay(&set, &map, &damaged);
            assert_eq!(answer.is_ok(), value == byte);
        }
    }
}

#[test]
fn every_thread_and_number_byte_of_a_flush_and_an_execute() {
    let (set, map, schedule) = (set(), cells(8), schedule());
    let trace = trace_of(&set, &map, &schedule);
    let flush = schedule.iter().position(|&byte| byte >= 128).unwrap();
    let execute = schedule.iter().position(|&byte| byte == 2).unwrap();
    let mut comparison = Comparison::new();
    for step in [flush, execute] {
        for thread in 0..=255 {
            for number in [0, 3, 9, 19, 20, 21, 148, 255] {
                let mut damaged = trace.clone();
                damaged[step * STEP_BYTES] = thread;
                damaged[step * STEP_BYTES + 1] = number;
                let _ = comparison.replay(&set, &map, &damaged);
            }
        }
    }
}

#[test]
fn every_length_of_a_trace() {
    let (set, map, schedule) = (set(), cells(8), schedule());
    let mut trace = trace_of(&set, &map, &schedule);
    trace.extend_from_within(..3 * STEP_BYTES);
    let mut comparison = Comparison::new();
    for length in 0..=trace.len() {
        let answer = comparison.replay(&set, &map, &trace[..length]);
        let accepted = length % STEP_BYTES == 0 && length <= MAX_STEPS * STEP_BYTES;
        assert_eq!(answer.is_ok(), accepted);
    }
}

#[test]
fn every_room_around_what_is_asked() {
    let (set, map, schedule) = (set(), cells(8), schedule());
    let mut comparison = Comparison::new();
    for steps in [0, 1, 2, 63, 64] {
        let needed = steps * STEP_BYTES;
        for room in needed.saturating_sub(30)..needed + 30 {
            let answer = comparison.simulate(&set, &map, &schedule[..steps], room);
            assert_eq!(answer.is_err(), room < needed);
        }
    }
}
