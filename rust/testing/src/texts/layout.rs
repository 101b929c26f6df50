//! Odd but legal layout: blanks and tabs around items, comments, empty lines, leading zeros, no LF at
//! the end, and filling up to the most bytes that a text may have.

use super::items::{is_dot_line, Item, Kind, Line};
use crate::Random;
use reference::read::MAX_TEXT;

/// How odd a text is, by percentages.
struct Layout {
    blanks: usize,
    comments: usize,
    zeros: usize,
    empty_lines: usize,
}

const PLAIN: Layout = Layout {
    blanks: 0,
    comments: 0,
    zeros: 0,
    empty_lines: 0,
};

/// As it would be written by hand, without comments.
pub fn plain_text(lines: &[Line]) -> Vec<u8> {
    let mut random = Random::new(0);
    let lines: Vec<Vec<u8>> = lines
        .iter()
        .map(|line| PLAIN.line(&mut random, line))
        .collect();
    joined(lines, true)
}

/// May be longer than a text may be.
pub fn text(random: &mut Random, lines: &[Line]) -> Vec<u8> {
    let layout = Layout {
        blanks: random.pick(&[0, 0, 10, 50, 90]),
        comments: random.pick(&[0, 0, 10, 50]),
        zeros: random.pick(&[0, 0, 10, 50]),
        empty_lines: random.pick(&[0, 0, 10, 50]),
    };
    let mut written = Vec::new();
    for line in lines {
        while random.chance(layout.empty_lines) {
            written.push(layout.empty_line(random));
        }
        written.push(layout.line(random, line));
    }
    let final_lf = random.chance(60);
    let size = random.pick(&[0, 0, 0, 0, 1_000, MAX_TEXT - 1, MAX_TEXT, MAX_TEXT]);
    if random.chance(20) {
        fill(random, &mut written, size, final_lf);
    }
    joined(written, final_lf)
}

fn joined(lines: Vec<Vec<u8>>, final_lf: bool) -> Vec<u8> {
    let mut text = lines.join(&b'\n');
    if final_lf {
        text.push(b'\n');
    }
    text
}

/// Puts empty lines between the lines until the text has this many bytes.
fn fill(random: &mut Random, lines: &mut Vec<Vec<u8>>, size: usize, final_lf: bool) {
    let bytes: usize = lines.iter().map(|line| line.len() + 1).sum();
    let bytes = bytes - usize::from(!final_lf && !lines.is_empty());
    let longest = random.pick(&[20, 200, 2_000, MAX_TEXT]);
    let mut rest = size.saturating_sub(bytes);
    while rest > 0 {
        // Each line comes with its LF.
        let length = random.between(0, longest).min(rest - 1);
        let line = if random.chance(30) {
            (0..length).map(|_| blank(random)).collect()
        } else {
            comment(random, length)
        };
        lines.insert(random.below(lines.len() + 1), line);
        rest -= length + 1;
    }
}

fn blank(random: &mut Random) -> u8 {
    random.pick(b"   \t")
}

/// A comment of this many bytes with its "#", or nothing.
fn comment(random: &mut Random, length: usize) -> Vec<u8> {
    let mut comment: Vec<u8> = (0..length)
        .map(|_| match random.below(8) {
            0 => random.pick(b"#.:[]\t 0"),
            _ => random.between(32, 126) as u8,
        })
        .collect();
    if let Some(first) = comment.first_mut() {
        *first = b'#';
    }
    comment
}

impl Layout {
    /// Blanks alone, a comment alone, both, or nothing.
    fn empty_line(&self, random: &mut Random) -> Vec<u8> {
        let mut line = Vec::new();
        self.put_blanks(random, &mut line);
        self.put_comment(random, &mut line);
        line
    }

    fn line(&self, random: &mut Random, items: &Line) -> Vec<u8> {
        let mut line = Vec::new();
        self.put_blanks(random, &mut line);
        for (index, item) in items.iter().enumerate() {
            if index > 0 && must_be_parted(&items[index - 1], item) {
                let blank = if self.blanks == 0 {
                    b' '
                } else {
                    blank(random)
                };
                line.push(blank);
            }
            if index > 0 {
                self.put_blanks(random, &mut line);
            }
            if item.kind == Kind::Number && random.chance(self.zeros) {
                let zeros = random.pick(&[1, 1, 2, 4, 5, 30, 300]);
                line.extend(vec![b'0'; zeros]);
            }
            line.extend_from_slice(item.text.as_bytes());
        }
        self.put_blanks(random, &mut line);
        if !is_dot_line(items) {
            self.put_comment(random, &mut line);
        }
        line
    }

    fn put_blanks(&self, random: &mut Random, line: &mut Vec<u8>) {
        while random.chance(self.blanks / 2) {
            line.push(blank(random));
        }
    }

    fn put_comment(&self, random: &mut Random, line: &mut Vec<u8>) {
        if random.chance(self.comments) {
            let length = random.between(1, 30);
            line.extend(comment(random, length));
        }
    }
}

/// "Blanks part word and argument, and address and value."
fn must_be_parted(before: &Item, after: &Item) -> bool {
    match before.kind {
        Kind::Word => true,
        Kind::Number => after.kind == Kind::Number,
        Kind::Label | Kind::Sign => false,
    }
}
