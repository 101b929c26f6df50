//! Random set texts: valid ones in odd but legal layout with the records they stand for, and damaged
//! ones.

pub mod counts;
pub mod damage;
pub mod items;
pub mod layout;

use crate::{maps, sets, Random};
use reference::read::MAX_TEXT;
use reference::records::{map_bytes, set_bytes, MAX_SET_MAP, MAX_STATEMENTS, MAX_THREADS};
use reference::Instruction::{Addi, Exit, Halt, Muli, Subi};
use reference::{Cell, Read, Statement};
use sets::Threads;

/// A text that document 01 accepts, with its records.
pub fn valid(random: &mut Random) -> (Vec<u8>, Read) {
    let (threads, cells) = set_and_map(random);
    let lines = items::lines(random, &threads, &cells);
    let mut text = layout::text(random, &lines);
    if text.len() > MAX_TEXT {
        text = layout::plain_text(&lines);
    }
    let read = Read {
        set: set_bytes(&threads),
        map: map_bytes(&cells),
    };
    (text, read)
}

/// A valid text, one with damages, or anything.
pub fn any(random: &mut Random) -> Vec<u8> {
    match random.below(20) {
        0..=4 => valid(random).0,
        5..=18 => damaged(random),
        _ => damage::mixture(random),
    }
}

fn set_and_map(random: &mut Random) -> (Threads, Vec<Cell>) {
    let mut threads = sets::threads(random);
    if random.chance(5) {
        make_full(random, &mut threads);
    }
    for thread in &mut threads {
        for statement in thread.iter_mut() {
            vary(random, statement);
        }
        // Often a HALT that the text need not write.
        if random.chance(40) {
            *thread.last_mut().expect("threads are not empty") = Statement::new(Halt, 0);
        }
    }
    let mut cells = maps::cells(random);
    cells.truncate(MAX_SET_MAP);
    (threads, cells)
}

/// Four threads of 32 statements. Jumps stay in their threads, which only grow.
fn make_full(random: &mut Random, threads: &mut Threads) {
    while threads.len() < MAX_THREADS {
        threads.push(threads[0].clone());
    }
    for thread in threads {
        while thread.len() < MAX_STATEMENTS {
            thread.insert(0, random.pick(thread));
        }
    }
}

/// Numbers of every length, where any number may stand.
fn vary(random: &mut Random, statement: &mut Statement) {
    let free = statement.instruction.is_memory()
        || matches!(statement.instruction, Addi | Subi | Muli | Exit);
    if free && random.chance(25) {
        statement.argument = random.word() >> random.below(16);
    }
}

/// One to five damages: to the set or the map, to items and lines, and to bytes.
fn damaged(random: &mut Random) -> Vec<u8> {
    let damages = random.pick(&[1, 1, 1, 1, 2, 2, 3, 5]);
    let kinds: Vec<usize> = (0..damages)
        .map(|_| random.weighted(&[3, 1, 5, 3]))
        .collect();
    let count = |kind| kinds.iter().filter(|&&other| other == kind).count();

    let (mut threads, mut cells) = set_and_map(random);
    for _ in 0..count(0) {
        sets::break_rule(random, &mut threads);
    }
    for _ in 0..count(1) {
        damage::cells(random, &mut cells);
    }
    let mut lines = items::lines(random, &threads, &cells);
    for _ in 0..count(2) {
        damage::lines(random, &mut lines);
    }
    let mut text = layout::text(random, &lines);
    // A text that is too long hides all other damage.
    if text.len() > MAX_TEXT && !random.chance(10) {
        text = layout::plain_text(&lines);
    }
    for _ in 0..count(3) {
        damage::bytes(random, &mut text);
    }
    text
}

#[cfg(test)]
mod tests {
    use super::*;
    use crate::TextCounts;
    use reference::read;

    #[test]
    fn valid_texts_say_their_records() {
        for seed in 0..5_000 {
            let (text, records) = valid(&mut Random::new(seed));
            let answer = read(&text, records.set.len(), records.map.len());
            let shown = String::from_utf8_lossy(&text);
            assert_eq!(answer, Ok(records), "seed {seed}: {shown}");
        }
    }

    #[test]
    fn every_refusal_is_reached_often() {
        let mut counts = TextCounts::default();
        for seed in 0..20_000 {
            let mut random = Random::new(seed);
            let text = any(&mut random);
            let room = random.pick(&[usize::MAX, usize::MAX, usize::MAX, 100]);
            counts.add(&text, &read(&text, room, room));
        }
        println!("{}", counts.table());
        for (what, count) in counts.rows() {
            assert!(count >= 50, "{count} texts reached \"{what}\"");
        }
    }
}
