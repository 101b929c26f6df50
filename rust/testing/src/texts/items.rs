//! The lines of a set text as items, before layout puts blanks and comments around them.

use crate::Random;
use reference::{Cell, Instruction, Statement};

#[derive(Clone, Copy, Debug, PartialEq, Eq)]
pub enum Kind {
    Label,
    Word,
    Number,
    /// A colon, a bracket or a dot.
    Sign,
}

#[derive(Clone, Debug, PartialEq, Eq)]
pub struct Item {
    pub kind: Kind,
    pub text: String,
}

impl Item {
    pub fn new(kind: Kind, text: &str) -> Item {
        let text = text.to_string();
        Item { kind, text }
    }

    pub fn number(value: u16) -> Item {
        Item::new(Kind::Number, &value.to_string())
    }

    fn sign(text: &str) -> Item {
        Item::new(Kind::Sign, text)
    }
}

/// Empty for an empty line.
pub type Line = Vec<Item>;

pub fn dot_line() -> Line {
    vec![Item::sign(".")]
}

pub fn is_dot_line(line: &Line) -> bool {
    *line == dot_line()
}

pub fn cell_line(cell: Cell) -> Line {
    vec![Item::number(cell.address), Item::number(cell.value)]
}

/// The lines of a set and its map, with labels and without the HALTs that a thread may gain. The
/// map's lines are shuffled.
pub fn lines(random: &mut Random, threads: &[Vec<Statement>], cells: &[Cell]) -> Vec<Line> {
    let mut lines = Vec::new();
    let labelled = random.pick(&[0, 10, 40, 100]);
    for thread in threads {
        lines.extend(thread_lines(random, thread, labelled));
        lines.push(dot_line());
    }
    let mut map: Vec<Line> = cells.iter().map(|&cell| cell_line(cell)).collect();
    if random.chance(70) {
        shuffle(random, &mut map);
    }
    lines.extend(map);
    lines
}

fn shuffle(random: &mut Random, lines: &mut [Line]) {
    for at in (1..lines.len()).rev() {
        lines.swap(at, random.below(at + 1));
    }
}

/// With labels at this percentage of the statements.
fn thread_lines(random: &mut Random, thread: &[Statement], labelled: usize) -> Vec<Line> {
    let gained = may_be_gained(thread) && random.chance(75);
    let written = &thread[..thread.len() - usize::from(gained)];
    let mut labels: Vec<Option<String>> = Vec::new();
    for _ in written {
        let label = random.chance(labelled).then(|| {
            let taken = |name: &String| labels.contains(&Some(name.clone()));
            let mut name = label(random);
            while taken(&name) {
                name = label(random);
            }
            name
        });
        labels.push(label);
    }
    let by_label = random.pick(&[30, 90]);
    written
        .iter()
        .zip(&labels)
        .map(|(statement, label)| {
            let target = labels.get(usize::from(statement.argument)).cloned();
            let target = target.flatten().filter(|_| random.chance(by_label));
            statement_line(statement, label.as_deref(), target.as_deref())
        })
        .collect()
}

/// Whether the thread without its last statement gains it.
fn may_be_gained(thread: &[Statement]) -> bool {
    let halt = Statement::new(Instruction::Halt, 0);
    matches!(thread, [.., before, last] if *last == halt && !before.instruction.may_be_last())
}

/// What the statement says, also where its word takes no such argument.
fn statement_line(statement: &Statement, label: Option<&str>, target: Option<&str>) -> Line {
    let Statement {
        instruction,
        indirect,
        argument,
    } = *statement;
    let mut line = Vec::new();
    if let Some(label) = label {
        line.extend([Item::new(Kind::Label, label), Item::sign(":")]);
    }
    line.push(Item::new(Kind::Word, instruction.word()));
    match target {
        _ if indirect => {
            line.extend([Item::sign("["), Item::number(argument), Item::sign("]")]);
        }
        Some(target) if instruction.is_jump() => line.push(Item::new(Kind::Label, target)),
        _ if instruction.has_argument() || argument != 0 => line.push(Item::number(argument)),
        _ => {}
    }
    line
}

/// Labels that a careless reader could mix up: instruction words, labels that differ by case, in
/// their length or in their last character alone, and of 16 characters.
pub fn label(random: &mut Random) -> String {
    let length = random.between(1, 16);
    match random.below(8) {
        0 | 1 => random.pick(&Instruction::ALL).word().to_string(),
        2 => random
            .pick(&["CMP", "FLUSH", "halt", "Halt", "hALT", "a", "A", "_"])
            .to_string(),
        3 => "l".repeat(length),
        4 => format!("abcdefghijklmno{}", label_character(random)),
        5 => format!("l{}", random.below(40)),
        _ => {
            let mut name = random.pick(&["a", "Z", "_", "q"]).to_string();
            name.extend((1..length).map(|_| label_character(random)));
            name
        }
    }
}

pub fn label_character(random: &mut Random) -> char {
    let all = b"abcdefghijklmnopqrstuvwxyzABCDEFGHIJKLMNOPQRSTUVWXYZ0123456789_";
    char::from(random.pick(all))
}
