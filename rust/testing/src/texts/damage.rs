//! Ways to damage set texts: their maps, their lines and items, and their bytes.

use super::items::{cell_line, dot_line, is_dot_line, label, label_character, Item, Kind, Line};
use crate::Random;
use reference::read::MAX_TEXT;
use reference::records::MAX_SET_MAP;
use reference::{Cell, Instruction};

/// An address doubled, or one cell more than a set's map may have.
pub fn cells(random: &mut Random, cells: &mut Vec<Cell>) {
    if !cells.is_empty() && random.chance(60) {
        let mut doubled = random.pick(cells);
        if random.chance(70) {
            doubled.value = random.word();
        }
        cells.push(doubled);
        return;
    }
    while cells.len() <= MAX_SET_MAP {
        let (address, value) = (random.word(), random.word());
        cells.push(Cell { address, value });
    }
}

/// Lines doubled, removed, swapped, added, or one of their items changed.
pub fn lines(random: &mut Random, lines: &mut Vec<Line>) {
    let count = lines.len();
    if count == 0 {
        lines.push(dot_line());
        return;
    }
    let (one, other) = (random.below(count), random.below(count));
    match random.below(16) {
        0 => lines.insert(other, lines[one].clone()),
        1 => drop(lines.remove(one)),
        2 => lines.swap(one, other),
        3 => lines.insert(one, dot_line()),
        4 => change_dot(random, lines),
        5 => {
            let (address, value) = (random.word(), random.word());
            lines.insert(one, cell_line(Cell { address, value }));
        }
        6..=8 => change_item(random, lines, Kind::Label),
        9..=12 => change_item(random, lines, Kind::Number),
        13 => change_item(random, lines, Kind::Word),
        _ => rearrange(random, &mut lines[one]),
    }
}

/// Removes a dot line or makes it one that only looks like it.
fn change_dot(random: &mut Random, lines: &mut Vec<Line>) {
    let dots: Vec<usize> = (0..lines.len())
        .filter(|&at| is_dot_line(&lines[at]))
        .collect();
    if dots.is_empty() {
        return;
    }
    let at = random.pick(&dots);
    if random.chance(40) {
        lines.remove(at);
    } else {
        let others = ["..", ". .", ".#", ". # x", ".\r", "\r.", ":", ".\0", "0."];
        lines[at][0].text = random.pick(&others).to_string();
    }
}

/// Changes one item of this kind, if there is one.
fn change_item(random: &mut Random, lines: &mut [Line], kind: Kind) {
    let mut items: Vec<&mut Item> = lines
        .iter_mut()
        .flatten()
        .filter(|item| item.kind == kind)
        .collect();
    if items.is_empty() {
        return;
    }
    let at = random.below(items.len());
    let text = &mut items[at].text;
    match kind {
        Kind::Label => *text = other_label(random, text),
        Kind::Word => *text = other_word(random, text),
        Kind::Number | Kind::Sign => *text = other_number(random, text),
    }
}

/// Unknown, doubled, too long, or no label at all.
fn other_label(random: &mut Random, text: &str) -> String {
    match random.below(6) {
        0 => {
            let mut longer = text.to_string();
            while longer.len() < 17 {
                longer.push(label_character(random));
            }
            longer
        }
        1 => format!("{text}{}", label_character(random)),
        2 => format!("{}{text}", random.below(10)),
        3 => text.replace(|c: char| c.is_ascii_lowercase(), "-"),
        _ => label(random),
    }
}

fn other_word(random: &mut Random, text: &str) -> String {
    match random.below(6) {
        0 => random
            .pick(&["CMP", "FLUSH", "NOP", "halt", ""])
            .to_string(),
        1 => text.to_ascii_lowercase(),
        2 => text[..random.below(text.len() + 1)].to_string(),
        3 => format!("{text}{}", label_character(random)),
        _ => random.pick(&Instruction::ALL).word().to_string(),
    }
}

/// Around and far beyond 65,535, around the length of a thread, or no number.
fn other_number(random: &mut Random, text: &str) -> String {
    let near = random.pick(&[65_534, 65_535, 65_536, 65_537, 65_545, 131_072]);
    match random.below(10) {
        0..=2 => u32::to_string(&near),
        3 => format!("{text}{}", random.below(10)),
        4 => format!("{text}00000"),
        5 => random
            .pick(&["4294967296", "4294967297", "18446744073709551616", "70000"])
            .to_string(),
        6 => format!("{}{text}", "9".repeat(random.pick(&[4, 5, 19, 40, 1_000]))),
        7 => random
            .pick(&["-1", "+1", "0x1", "1a", "1,0", "", "a", "[1]"])
            .to_string(),
        _ => random.between(0, 34).to_string(),
    }
}

/// An item of the line removed, doubled, swapped with another, or joined with the next.
fn rearrange(random: &mut Random, line: &mut Line) {
    if line.is_empty() {
        line.push(Item::number(random.word()));
        return;
    }
    let (one, other) = (random.below(line.len()), random.below(line.len()));
    match random.below(4) {
        0 => drop(line.remove(one)),
        1 => line.insert(other, line[one].clone()),
        2 if one + 1 < line.len() => {
            let next = line.remove(one + 1);
            line[one].text += &next.text;
        }
        _ => line.swap(one, other),
    }
}

/// Bytes that mean something in a text, and forbidden ones.
const SPECIAL: &[u8] = b"\n\n \t.:#[]_-09azAZHJ\r\0\x0b\x0c\x7f\x80\xff";

/// A byte changed, added or removed, the text cut, or one byte more than it may have.
pub fn bytes(random: &mut Random, text: &mut Vec<u8>) {
    let at = random.below(text.len() + 1);
    let byte = if random.chance(50) {
        random.byte()
    } else {
        random.pick(SPECIAL)
    };
    match random.below(12) {
        0..=3 if at < text.len() => text[at] = byte,
        4 | 5 => text.insert(at, byte),
        6 | 7 if at < text.len() => drop(text.remove(at)),
        8 if at + 1 < text.len() => text.swap(at, at + 1),
        9 => text.truncate(at),
        10 => text.resize(random.pick(&[MAX_TEXT, MAX_TEXT + 1]), b'\n'),
        _ => {
            let longer = text.len().max(MAX_TEXT + random.below(2));
            let padding = random.pick(b"\n  #x");
            let padding = vec![padding; longer - text.len()];
            text.splice(at..at, padding);
        }
    }
}

/// Words, signs, numbers and blanks in any order.
pub fn mixture(random: &mut Random) -> Vec<u8> {
    let parts = [
        "\n", "\n", "\n", "\n", " ", "\t", " ", ".", "\n.\n", "\n.\n", "#", ":", "[", "]", "0",
        "1", "65535", "65536", "a", "b:", "HALT", "\nHALT\n", "JMP a", "LOAD ", "LOAD [1]",
        "EXIT 1", "CHECK 1", "1 2\n", "3 4\n", "FENCE\n", "JZ 0\n", "\r",
    ];
    let count = random.pick(&[0, 1, 3, 5, 10, 20, 60, 60, 3_000]);
    (0..count)
        .flat_map(|_| random.pick(&parts).bytes())
        .collect()
}
