//! One line of a set text: which lines end a section, and what a statement line or a map line says.

use crate::{Cell, Instruction};

const MAX_LABEL: usize = 16;

/// What is wrong with a line. "2 before 3 in a line": a number's value is looked at last.
#[derive(Clone, Copy, Debug, PartialEq, Eq)]
pub enum Fault {
    /// Malformed, or a forbidden byte: 2.
    Malformed,
    /// A number above 65,535: 3.
    NumberAbove,
}

/// A statement as it is written. Labels become pcs when the whole thread is known.
#[derive(Clone, Copy, Debug, PartialEq, Eq)]
pub struct Written<'a> {
    pub label: Option<&'a [u8]>,
    pub instruction: Instruction,
    pub indirect: bool,
    pub argument: Argument<'a>,
}

#[derive(Clone, Copy, Debug, PartialEq, Eq)]
pub enum Argument<'a> {
    /// 0 where the word has no argument.
    Number(u16),
    Label(&'a [u8]),
}

/// "A line holding only "." and blanks", and so without a comment.
pub fn is_dot_line(line: &[u8]) -> bool {
    trimmed(line) == b"."
}

/// A statement line, which may be empty.
pub fn statement_line(line: &[u8]) -> Result<Option<Written<'_>>, Fault> {
    match content(line)? {
        [] => Ok(None),
        content => statement(content).map(Some),
    }
}

/// A map line, "address value", which may be empty.
pub fn map_line(line: &[u8]) -> Result<Option<Cell>, Fault> {
    match content(line)? {
        [] => Ok(None),
        content => cell(content).map(Some),
    }
}

/// "A blank is a space or tab."
fn is_blank(byte: u8) -> bool {
    matches!(byte, b' ' | b'\t')
}

/// "Tab, LF and 32 to 126"; a line holds no LF.
fn is_allowed(byte: u8) -> bool {
    matches!(byte, b'\t' | 32..=126)
}

/// Without the blanks at both ends.
fn trimmed(mut bytes: &[u8]) -> &[u8] {
    while let [first, rest @ ..] = bytes {
        if !is_blank(*first) {
            break;
        }
        bytes = rest;
    }
    while let [rest @ .., last] = bytes {
        if !is_blank(*last) {
            break;
        }
        bytes = rest;
    }
    bytes
}

/// What stands before the comment. A byte that a text may not hold is forbidden in comments too.
fn content(line: &[u8]) -> Result<&[u8], Fault> {
    if !line.iter().all(|&byte| is_allowed(byte)) {
        return Err(Fault::Malformed);
    }
    let comment = line.iter().position(|&byte| byte == b'#');
    Ok(trimmed(&line[..comment.unwrap_or(line.len())]))
}

/// "A statement is an optional label and ":", a word, and its argument."
fn statement(content: &[u8]) -> Result<Written<'_>, Fault> {
    let (label, rest) = match content.iter().position(|&byte| byte == b':') {
        None => (None, content),
        Some(colon) => {
            let label = trimmed(&content[..colon]);
            if !is_label(label) {
                return Err(Fault::Malformed);
            }
            (Some(label), trimmed(&content[colon + 1..]))
        }
    };
    let (word, argument) = parted(rest);
    let instruction = Instruction::from_word(word).ok_or(Fault::Malformed)?;
    let (indirect, argument) = argument_of(instruction, argument)?;
    Ok(Written {
        label,
        instruction,
        indirect,
        argument,
    })
}

/// "None for FENCE and HALT; number or [number] for LOAD, STORE, ADD, SUB, MUL, MEM, CAS; number or
/// label for jumps; number otherwise." Also whether it is indirect.
fn argument_of(instruction: Instruction, bytes: &[u8]) -> Result<(bool, Argument<'_>), Fault> {
    match bytes {
        [] if !instruction.has_argument() => Ok((false, Argument::Number(0))),
        _ if !instruction.has_argument() => Err(Fault::Malformed),
        [b'[', inner @ .., b']'] if instruction.is_memory() => {
            Ok((true, Argument::Number(number(trimmed(inner))?)))
        }
        _ if instruction.is_jump() && is_label(bytes) => Ok((false, Argument::Label(bytes))),
        _ => Ok((false, Argument::Number(number(bytes)?))),
    }
}

fn cell(content: &[u8]) -> Result<Cell, Fault> {
    let (address, value) = parted(content);
    // Both have their form before the value of either is looked at.
    let (address, value) = (digits(address)?, digits(value)?);
    Ok(Cell {
        address: in_range(address)?,
        value: in_range(value)?,
    })
}

/// "Blanks part word and argument, and address and value": what stands before the first blank, and
/// the rest without blanks around it.
fn parted(content: &[u8]) -> (&[u8], &[u8]) {
    let blank = content.iter().position(|&byte| is_blank(byte));
    let (first, rest) = content.split_at(blank.unwrap_or(content.len()));
    (first, trimmed(rest))
}

/// "Labels have 1 to 16 letters, digits or underscores, no digit first."
fn is_label(bytes: &[u8]) -> bool {
    let part = |byte: &u8| byte.is_ascii_alphanumeric() || *byte == b'_';
    (1..=MAX_LABEL).contains(&bytes.len()) && !bytes[0].is_ascii_digit() && bytes.iter().all(part)
}

fn number(bytes: &[u8]) -> Result<u16, Fault> {
    in_range(digits(bytes)?)
}

/// "Numbers are decimal digits", any count of them. All above 65,535 give 65,536, so that no sum
/// overflows.
fn digits(bytes: &[u8]) -> Result<u32, Fault> {
    if bytes.is_empty() {
        return Err(Fault::Malformed);
    }
    bytes.iter().try_fold(0, |value: u32, byte| match byte {
        b'0'..=b'9' => Ok((10 * value + u32::from(byte - b'0')).min(65_536)),
        _ => Err(Fault::Malformed),
    })
}

/// "0 to 65,535."
fn in_range(value: u32) -> Result<u16, Fault> {
    u16::try_from(value).map_err(|_| Fault::NumberAbove)
}
