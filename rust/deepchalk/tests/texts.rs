//! The library against the second reader on random texts, the examples of every rule, and a text
//! with every byte changed.
//! A failure prints its seed; DEEPCHALK_SEED=seed DEEPCHALK_INPUTS=1 makes that input again.

mod reading;

use reading::Reading;
use reference::records::{CELL_BYTES, STATEMENT_BYTES};
use reference::{examples, Read, Refusal};
use testing::{texts, Random};

const INPUTS: u64 = 24_000;

fn from_environment(name: &str) -> Option<u64> {
    let text = std::env::var(name).ok()?;
    Some(text.parse().expect("a decimal number"))
}

#[test]
fn library_and_second_reader_agree() {
    let first = from_environment("DEEPCHALK_SEED").unwrap_or(1);
    let inputs = from_environment("DEEPCHALK_INPUTS").unwrap_or(INPUTS);
    let mut reading = Reading::new();
    for seed in first..first + inputs {
        reading.seed = seed;
        let mut random = Random::new(seed);
        let text = texts::any(&mut random);
        let answer = reading.read_with_room(&text);
        let (set_room, map_room) = rooms(&mut random, &answer);
        let _ = reading.read(&text, set_room, map_room);
    }

    let counts = &reading.counts;
    println!(
        "{inputs} texts from seed {first}: {} reads\n{}",
        counts.total(),
        counts.table()
    );
    if inputs >= INPUTS {
        for (what, count) in counts.rows() {
            assert!(count >= 100, "{count} reads reached \"{what}\"");
        }
    }
}

/// Around the exact bytes that an accepted text asks; any for the others.
fn rooms(random: &mut Random, answer: &Result<Read, Refusal>) -> (usize, usize) {
    let (set, map) = match answer {
        Ok(read) => (read.set.len(), read.map.len()),
        Err(_) => (random.below(1_100), random.below(600)),
    };
    let less = |random: &mut Random, bytes: usize| {
        let any = random.below(bytes + 1);
        random.pick(&[bytes.saturating_sub(1), 0, any])
    };
    match random.below(6) {
        0 => (less(random, set), map),
        1 => (set, less(random, map)),
        2 => (less(random, set), less(random, map)),
        3 => (set + random.below(20), map + random.below(20)),
        _ => (set, map),
    }
}

#[test]
fn examples_of_every_rule() {
    let mut reading = Reading::new();
    for example in examples::all() {
        let counts = reading.read_with_room(&example.text).map(|read| {
            (
                read.set.len() / STATEMENT_BYTES,
                read.map.len() / CELL_BYTES,
            )
        });
        let text = example.text.escape_ascii();
        assert_eq!(counts, example.answer, "{}: \"{text}\"", example.rule);
    }
}

/// All kinds of lines and items.
const TEXT: &[u8] =
    b"a: LOAD [ 5 ]#x\n\tJZ a # :.\n.\n\n_B :CHECK 007\n JMP _B\n . \n9 1\n 3\t65535\n";

#[test]
fn every_value_of_every_byte() {
    let mut reading = Reading::new();
    assert!(reading.read_with_room(TEXT).is_ok());
    for at in 0..TEXT.len() {
        for value in 0..=255 {
            let mut changed = TEXT.to_vec();
            changed[at] = value;
            let _ = reading.read_with_room(&changed);
        }
    }
}

#[test]
fn every_byte_put_in_everywhere() {
    let mut reading = Reading::new();
    for at in 0..=TEXT.len() {
        for value in 0..=255 {
            let longer = [&TEXT[..at], &[value], &TEXT[at..]].concat();
            let _ = reading.read_with_room(&longer);
        }
    }
}

#[test]
fn every_part_left_out() {
    let mut reading = Reading::new();
    for from in 0..TEXT.len() {
        for to in from..=TEXT.len() {
            let shorter = [&TEXT[..from], &TEXT[to..]].concat();
            let _ = reading.read_with_room(&shorter);
        }
    }
}
