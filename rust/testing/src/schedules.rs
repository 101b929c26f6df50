//! Random schedules: most follow the choices that the machine permits, as deep as they can; some
//! are changed in one place or are random bytes.

use crate::Random;
use reference::records::MAX_GIVEN_MAP;
use reference::trace::{trace_step, MAX_STEPS};
use reference::{accept_map, accept_set, Choice, End, Machine};

/// A schedule for these bytes, which may be refused as a set or a map.
pub fn schedule(random: &mut Random, set: &[u8], map: &[u8]) -> Vec<u8> {
    let accepted = accept_set(set).and_then(|set| Ok((set, accept_map(map, MAX_GIVEN_MAP)?)));
    let mut schedule = match accepted {
        Ok((set, map)) if !random.chance(3) => follow(random, Machine::fresh(&set, map)),
        _ => {
            let length = random.below(MAX_STEPS + 3);
            likely_bytes(random, length)
        }
    };
    if random.chance(15) {
        change(random, &mut schedule);
    }
    schedule
}

/// Permitted choices up to a length of 0 to 64.
fn follow(random: &mut Random, mut machine: Machine) -> Vec<u8> {
    let length = match random.below(10) {
        0 => random.below(4),
        1..=4 => random.below(MAX_STEPS + 1),
        _ => MAX_STEPS,
    };
    // Rare flushes keep buffers full, so that loads are forwarded and FENCE, CAS and HALT are held
    // up.
    let flushes = random.pick(&[3, 15, 50]);
    let mut schedule = Vec::new();
    while schedule.len() < length {
        let Some(choice) = next_choice(random, &machine, flushes) else {
            break;
        };
        schedule.push(choice.schedule_byte());
        if machine.step(choice).is_err() {
            break;
        }
    }
    schedule
}

/// A permitted choice, a flush by this percentage. Choices that end the machine, read a lacking
/// cell or change no register are mostly put off until nothing else is left, so that runs go deep.
fn next_choice(random: &mut Random, machine: &Machine, flushes: usize) -> Option<Choice> {
    let permitted: Vec<Choice> = machine
        .choices()
        .filter(|&choice| machine.permitted(choice))
        .collect();
    let going_on: Vec<Choice> = permitted
        .iter()
        .copied()
        .filter(|&choice| {
            let mut next = machine.clone();
            next.step(choice).is_ok()
                && !matches!(next.end(), End::Code(_))
                && next.threads() != machine.threads()
        })
        .collect();
    let from = if going_on.is_empty() || random.chance(3) {
        permitted
    } else {
        going_on
    };
    let (flushing, executing): (Vec<Choice>, Vec<Choice>) = from
        .iter()
        .partition(|choice| matches!(choice, Choice::Flush(_)));
    match (executing.is_empty(), flushing.is_empty()) {
        (true, true) => None,
        (false, true) => Some(random.pick(&executing)),
        (true, false) => Some(random.pick(&flushing)),
        (false, false) if random.chance(flushes) => Some(random.pick(&flushing)),
        (false, false) => Some(random.pick(&executing)),
    }
}

/// Mostly bytes that name one of four threads.
fn likely_bytes(random: &mut Random, length: usize) -> Vec<u8> {
    (0..length)
        .map(|_| match random.below(10) {
            0 => random.byte(),
            1..=3 => 128 + random.below(4) as u8,
            _ => random.below(4) as u8,
        })
        .collect()
}

fn change(random: &mut Random, schedule: &mut Vec<u8>) {
    let at = random.below(schedule.len() + 1);
    let byte = match random.below(3) {
        0 => random.byte(),
        1 => random.between(4, 255) as u8,
        _ => random.pick(&[0, 1, 2, 3, 4, 127, 128, 129, 130, 131, 132, 255]),
    };
    match random.below(4) {
        // Beyond the run, often beyond its end.
        0 => schedule.push(byte),
        1 if at < schedule.len() => schedule[at] = byte,
        2 => schedule.insert(at, byte),
        _ => schedule.resize(random.pick(&[64, 65, 66, 200]), byte),
    }
}

/// The trace steps of a schedule as far as its choices are permitted, with the step that reads a
/// lacking cell as the last one. Empty where the set or the map is refused.
pub fn trace_of(set: &[u8], map: &[u8], schedule: &[u8]) -> Vec<u8> {
    let mut trace = Vec::new();
    let (Ok(set), Ok(map)) = (accept_set(set), accept_map(map, MAX_GIVEN_MAP)) else {
        return trace;
    };
    let mut machine = Machine::fresh(&set, map);
    for &byte in schedule {
        let choice = Choice::from_schedule(byte);
        if !machine.permitted(choice) {
            break;
        }
        trace.extend_from_slice(&trace_step(&machine, choice));
        if machine.step(choice).is_err() {
            break;
        }
    }
    trace
}
