//! The legend: what the signs mean that a picture has.

use super::elements::{width, Elements, SMALL};
use super::labels::{reads, FORWARDED, OLD};
use super::picture::{HEADING, HEADING_END, STORE};
use super::run::{Row, Run};

#[derive(Clone, Copy)]
enum Sign {
    Store,
    Write,
    Read,
    Forwarded,
    Old,
    Missed,
    Registers,
}

impl Sign {
    const ALL: [Sign; 7] = [
        Sign::Store,
        Sign::Write,
        Sign::Read,
        Sign::Forwarded,
        Sign::Old,
        Sign::Missed,
        Sign::Registers,
    ];

    fn meaning(self) -> &'static str {
        match self {
            Sign::Store => "a store waits in its thread's buffer",
            Sign::Write => "a STORE into the buffer; a flush or a matching CAS into memory",
            Sign::Read => "a word read, from memory or from the buffer",
            Sign::Forwarded => "the thread's own buffer gives the word",
            Sign::Old => "another thread's store to that cell still waits",
            Sign::Missed => "that store, at that step",
            Sign::Registers => "registers before the step",
        }
    }

    fn is_in(self, run: &Run) -> bool {
        let any = |holds: fn(&Row) -> bool| run.steps().any(holds);
        match self {
            Sign::Store => !run.waiting.is_empty(),
            Sign::Write => any(|row| row.effect.written.is_some() || row.effect.stored.is_some()),
            Sign::Read => any(|row| reads(&row.effect).next().is_some() || row.forwarded.is_some()),
            Sign::Forwarded => any(|row| row.forwarded.is_some()),
            Sign::Old | Sign::Missed => any(|row| !row.missed.is_empty()),
            Sign::Registers => any(|_| true),
        }
    }

    fn draw(self, elements: &mut Elements, y: f64) {
        let (left, right) = SIGN;
        let mut word = |word| elements.text(right, y + 4.0, HEADING_END, word);
        match self {
            Sign::Store => elements.rectangle((left, y - 7.0), (right, y + 7.0), STORE),
            Sign::Write => elements.write_arrow(left, right, y),
            Sign::Read => elements.read_arrow(right, left, y),
            Sign::Missed => elements.diamond((left + right) / 2.0, y),
            Sign::Forwarded => word(FORWARDED),
            Sign::Old => word(OLD),
            Sign::Registers => word("accu"),
        }
    }
}

/// Where signs start and end, and where the words start.
const SIGN: (f64, f64) = (50.0, 80.0);
const WORDS: f64 = 92.0;
const LINE: f64 = 18.0;

/// Draws those that the picture has, from this height on. Gives the right edge and the bottom.
pub fn draw(run: &Run, elements: &mut Elements, top: f64) -> (f64, f64) {
    let mut right: f64 = 0.0;
    let mut y = top;
    for sign in Sign::ALL.into_iter().filter(|sign| sign.is_in(run)) {
        sign.draw(elements, y);
        elements.text(WORDS, y + 4.0, HEADING, sign.meaning());
        right = right.max(WORDS + width(sign.meaning(), SMALL) + 10.0);
        y += LINE;
    }
    (right, y)
}
