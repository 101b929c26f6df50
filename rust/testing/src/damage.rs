//! Ways to damage records and traces.

use crate::Random;
use reference::records::{CELL_BYTES, STATEMENT_BYTES};
use reference::trace::{MAX_STEPS, STEP_BYTES};

/// Damages any bytes: one byte changed, cut, extended, or all random.
pub fn bytes(random: &mut Random, bytes: &mut Vec<u8>) {
    match random.below(8) {
        0 => bytes.truncate(random.below(bytes.len() + 1)),
        1 => {
            let count = random.between(1, 9);
            bytes.extend(random.bytes(count));
        }
        2 => *bytes = random.bytes(bytes.len()),
        _ => change_byte(random, bytes),
    }
}

/// Changes one byte, if there is one.
pub fn change_byte(random: &mut Random, bytes: &mut [u8]) {
    if bytes.is_empty() {
        return;
    }
    let at = random.below(bytes.len());
    bytes[at] = match random.below(4) {
        0 => random.byte(),
        1 => bytes[at] ^ (1 << random.below(8)),
        2 => bytes[at].wrapping_add(1),
        _ => bytes[at].wrapping_sub(1),
    };
}

/// Damages a trace in a way that a reader of traces could miss.
pub fn trace(random: &mut Random, trace: &mut Vec<u8>) {
    let steps = trace.len() / STEP_BYTES;
    match random.below(13) {
        0 => trace.truncate(random.below(trace.len() + 1)),
        1 => trace.truncate(random.below(steps + 1) * STEP_BYTES),
        2 => {
            let count = random.between(1, 2 * STEP_BYTES);
            trace.extend(random.bytes(count));
        }
        3 if steps > 0 => {
            let copied = random.below(steps) * STEP_BYTES;
            trace.extend_from_within(copied..copied + STEP_BYTES);
        }
        4 => trace.resize(random.pick(&[64, 65, 66]) * STEP_BYTES, 0),
        5 if steps > 1 => {
            let (one, other) = (random.below(steps), random.below(steps));
            for at in 0..STEP_BYTES {
                trace.swap(one * STEP_BYTES + at, other * STEP_BYTES + at);
            }
        }
        6 if steps > 0 => {
            let dropped = random.below(steps) * STEP_BYTES;
            trace.drain(dropped..dropped + STEP_BYTES);
        }
        7 => {
            let count = random.below(MAX_STEPS + 2) * STEP_BYTES;
            *trace = random.bytes(count);
        }
        8 | 9 if steps > 0 => {
            let threads = [0, 1, 2, 3, 4, 5, 127, 128, 129, 130, 131, 132, 255];
            trace[random.below(steps) * STEP_BYTES] = random.pick(&threads);
        }
        10 if steps > 0 => {
            let numbers = [0, 9, 17, 18, 19, 20, 20, 20, 21, 148, 255];
            trace[random.below(steps) * STEP_BYTES + 1] = random.pick(&numbers);
        }
        _ => change_byte(random, trace),
    }
}

/// A set with another argument or another instruction in one statement. It is often accepted still.
pub fn set(random: &mut Random, set: &mut [u8]) {
    let statements = set.len() / STATEMENT_BYTES;
    if statements == 0 {
        return;
    }
    let at = random.below(statements) * STATEMENT_BYTES;
    let field = random.pick(&[1, 4, 4, 4]);
    change_byte(random, &mut set[at + field..at + field + 1]);
}

/// A map with one cell less or another value in one cell.
pub fn map(random: &mut Random, map: &mut Vec<u8>) {
    let cells = map.len() / CELL_BYTES;
    if cells == 0 {
        return;
    }
    let at = random.below(cells) * CELL_BYTES;
    if random.chance(60) {
        map.drain(at..at + CELL_BYTES);
    } else {
        let half = random.between(2, 3);
        change_byte(random, &mut map[at + half..at + half + 1]);
    }
}
