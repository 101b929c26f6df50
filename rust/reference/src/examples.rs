//! Set texts with their answers: examples for each rule of lines, statements and maps. The letters
//! and numbers are those of the readings in docs/DECISIONS.md.

use crate::Refusal;

pub struct Example {
    pub rule: &'static str,
    pub text: Vec<u8>,
    /// The statements and the cells, or the refusal.
    pub answer: Result<(usize, usize), Refusal>,
}

/// With room enough for both outputs.
pub fn all() -> Vec<Example> {
    let mut all = lines();
    all.extend(forbidden_bytes());
    all.extend(statements());
    all.extend(numbers());
    all.extend(labels());
    all.extend(order_of_refusals());
    all.extend(maps());
    all
}

fn accepted(rule: &'static str, text: &str, statements: usize, cells: usize) -> Example {
    Example {
        rule,
        text: text.into(),
        answer: Ok((statements, cells)),
    }
}

fn refused(rule: &'static str, text: &str, number: u8, place: u32) -> Example {
    Example {
        rule,
        text: text.into(),
        answer: Err(Refusal { number, place }),
    }
}

/// One statement line in a thread of its own. A HALT that is gained counts.
fn line(rule: &'static str, line: &str, statements: usize) -> Example {
    accepted(rule, &format!("{line}\n.\n"), statements, 0)
}

fn malformed(rule: &'static str, line: &str) -> Example {
    refused(rule, &format!("FENCE\n{line}\n.\n"), 2, 2)
}

fn lines() -> Vec<Example> {
    let full = format!("HALT\n.\n#{}\n", "x".repeat(16_384 - 9));
    vec![
        refused("A1 a later dot decides", "EXIT 1\n", 2, 1),
        refused("A1 a later dot decides", "EXIT 1\n. # end\n", 2, 1),
        refused("A1 a later dot decides", "HALT\n.\nHALT\n", 2, 3),
        refused("A1 a later dot decides", "1 2\nHALT\n.\n", 2, 1),
        accepted("A1 a later dot decides", "HALT\n.\nHALT\n.\n1 2\n", 2, 1),
        refused("A2 one dot", "HALT\n..\n", 2, 1),
        malformed("A2 one dot", ".."),
        malformed("A2 one dot", ". ."),
        malformed("A3 no comment after a dot", ". # x"),
        malformed("A3 no comment after a dot", ".#"),
        accepted("A4 blanks around a dot", "HALT\n .\t\n", 1, 0),
        accepted("A5 no LF at the end", "EXIT 1\n.", 1, 0),
        accepted("A5 no LF at the end", "HALT\n.\n1 2", 1, 1),
        accepted("A6 blanks alone", " \t\nHALT\n\t \n.\n \n\t", 1, 0),
        accepted(
            "A10 anything in comments",
            "HALT # ## . : [\n#.\n.\n1 2#3",
            1,
            1,
        ),
        refused("A11 every line counts", "\n# x\nHALT\n.\n\n \nx\n", 2, 7),
        refused("A12 no thread", "", 4, 0),
        refused("A12 no thread", "\n\n", 4, 0),
        refused("A12 no thread", "# HALT\n# .", 4, 0),
        refused("A12 an empty thread", ".\n", 5, 0),
        refused("A12 five threads", ".\n.\n.\n.\n.\n", 4, 0),
        refused("A13 a map alone", "1 5\n1 5\n", 4, 0),
        accepted("A14 16,384 bytes", &full, 1, 0),
        refused("A14 16,385 bytes", &format!("{full}\n"), 1, 0),
        refused("A14 16,385 bytes", &"\r".repeat(16_385), 1, 0),
        refused("A14 16,384 bytes", &"\r".repeat(16_384), 2, 1),
    ]
}

fn forbidden_bytes() -> Vec<Example> {
    let mut examples = Vec::new();
    let allowed = |byte| matches!(byte, b'\t' | b'\n' | 32..=126);
    for byte in (0..=255).filter(|&byte| !allowed(byte)) {
        for (rule, before, after, place) in [
            ("A7 a forbidden byte", "HALT", "\n.\n", 1),
            ("A7 a forbidden byte in the map", "HALT\n.\n1 2", "", 3),
            (
                "A8 a forbidden byte in a comment",
                "HALT\n.\n# ",
                " x\n1 2\n",
                3,
            ),
            ("A9 a forbidden byte by a dot", "HALT\n.", "\n.\n", 2),
            ("A9 a forbidden byte by the only dot", "HALT\n.", "\n", 1),
        ] {
            examples.push(Example {
                rule,
                text: [before.as_bytes(), &[byte], after.as_bytes()].concat(),
                answer: Err(Refusal::malformed(place)),
            });
        }
    }
    examples
}

fn statements() -> Vec<Example> {
    vec![
        malformed("B1 a blank before the bracket", "LOAD[5]"),
        malformed("B1 a blank before the bracket", "x:LOAD[ 5 ]"),
        malformed("B1 both brackets", "LOAD [5"),
        malformed("B1 both brackets", "LOAD 5]"),
        malformed("B1 both brackets", "LOAD ["),
        malformed("B1 a number in brackets", "LOAD [ ]"),
        malformed("B1 a number in brackets", "LOAD [[5]]"),
        line("B1 blanks around brackets", "LOAD [5]", 2),
        line("B1 blanks around brackets", "LOAD [ 5 ]", 2),
        line("B1 blanks around brackets", "LOAD\t[5]", 2),
        line("B1 blanks around brackets", "LOAD  [\t5] #]", 2),
        line("B2 label and colon", "a:HALT", 1),
        line("B2 label and colon", "a :HALT", 1),
        line("B2 label and colon", "a: HALT", 1),
        line("B2 label and colon", " a\t: HALT ", 1),
        malformed("B2 a label alone", "a:"),
        malformed("B2 a colon alone", ": HALT"),
        malformed("B2 a colon alone", ":"),
        malformed("B2 two labels", "a: b: HALT"),
        malformed("B2 two labels", "a b: HALT"),
        malformed("B11 no argument", "HALT 0"),
        malformed("B11 no argument", "FENCE -"),
        malformed("B11 an argument", "LOAD"),
        malformed("B11 an argument", "JMP"),
        malformed("B11 an argument", "EXIT #1"),
        malformed("B11 one argument", "ADDI 1 2"),
        malformed("B11 one argument", "JMP a b"),
        malformed("B12 no such word", "CMP 5"),
        malformed("B12 no such word", "FLUSH"),
        malformed("B12 no such word", "halt"),
        malformed("B12 no such word", "Halt"),
        malformed("B12 no such word", "HALTX"),
        malformed("B12 no such word", "1 2"),
        line("B13 a comment straight after", "HALT#x", 1),
        line("B13 a comment straight after", "LOAD 5#x", 2),
        line("B13 a comment straight after", "LOAD [5]#x", 2),
        malformed("B13 a comment in between", "a#:HALT"),
        malformed("B15 label and colon are one", "a HALT"),
        malformed("B1 no such argument", "ADDI [5]"),
        malformed("B1 no such argument", "JMP [5]"),
        malformed("B1 no such argument", "CHECK a"),
        malformed("B1 no such argument", "LOAD a"),
    ]
}

fn numbers() -> Vec<Example> {
    let zeros = "0".repeat(5_000);
    let nines = "9".repeat(5_000);
    vec![
        line("B6 leading zeros", "ADDI 00001", 2),
        line("B6 leading zeros", &format!("ADDI {zeros}65535"), 2),
        line("B6 leading zeros", &format!("JZ {zeros}1"), 2),
        refused("B6 leading zeros", &format!("ADDI {zeros}65536\n.\n"), 3, 1),
        refused("B7 many digits", &format!("HALT\nEXIT {nines}\n.\n"), 3, 2),
        refused("B7 many digits", "EXIT 4294967296\n.\n", 3, 1),
        refused("B7 many digits", "EXIT 18446744073709551617\n.\n", 3, 1),
        line("B7 65,535", "EXIT 65535", 1),
        refused("B7 65,536", "EXIT 65536\n.\n", 3, 1),
        refused("B7 65,536 in brackets", "LOAD [65536]\n.\n", 3, 1),
        malformed("B8 2 before 3", "ADDI 65536 x"),
        malformed("B8 2 before 3", "ADDI 65536 #\r"),
        malformed("B8 2 before 3", "FENCE 65536"),
        malformed("B8 2 before 3", "JMP [65536]"),
        malformed("B8 2 before 3", "LOAD [65536"),
        refused("B8 2 before 3", "HALT\n.\n65536", 2, 3),
        refused("B8 2 before 3", "HALT\n.\n65536 x", 2, 3),
        refused("B8 2 before 3", "HALT\n.\nx 65536", 2, 3),
        refused("B8 lines in order", "ADDI 65536\nx\n.\n", 3, 1),
        refused("B8 lines in order", "x\nADDI 65536\n.\n", 2, 1),
        refused("B9 a jump's number", "JMP 65536\n.\n", 3, 1),
        refused("B9 a jump's number", "JMP 65535\n.\n", 6, 0),
        malformed("B11 no sign", "ADDI -1"),
        malformed("B11 no sign", "ADDI +1"),
        malformed("B11 no hex", "ADDI 0x10"),
        malformed("B11 no comma", "ADDI 1,000"),
        malformed("B11 no semicolon", "HALT;"),
    ]
}

fn labels() -> Vec<Example> {
    let longest = "_aB3456789012345";
    vec![
        line("B3 a label like a word", "LOAD: LOAD 5", 2),
        line("B3 a label like a word", "JMP: JMP JMP", 1),
        line("B3 a label like a word", "CMP: HALT", 1),
        accepted("B3 a label like a word", "JMP HALT\nHALT:HALT\n.\n", 2, 0),
        refused("B4 labels differ by case", "a: JMP A\n.\n", 6, 0),
        accepted("B4 labels differ by case", "a: JMP A\nA: HALT\n.\n", 2, 0),
        line("B5 16 characters", &format!("{longest}: JMP {longest}"), 1),
        malformed("B5 17 characters", &format!("{longest}6: HALT")),
        malformed("B5 17 characters", &format!("JMP {longest}6")),
        malformed("B5 no such character", "a-b: HALT"),
        malformed("B5 no such character", "JMP a.b"),
        malformed("B5 a digit first", "1a: HALT"),
        malformed("B5 a digit first", "JMP 1a"),
        line("B5 an underscore first", "_1: JMP _1", 1),
        line("B10 the gained HALT", "JZ 1", 2),
        refused("B10 the gained HALT", "JZ 2\n.\n", 6, 0),
        refused("B10 nothing gained", "JMP 1\n.\n", 6, 0),
        line("B10 nothing gained", "JMP 0", 1),
        line("B14 an unused label", "a: HALT", 1),
        refused("B14 a doubled label", "a: FENCE\na: HALT\n.\n", 6, 0),
        refused("B14 an unknown label", "JMP b\n.\n", 6, 0),
        refused("B14 another thread's label", "JMP a\n.\na: HALT\n.\n", 6, 0),
        accepted(
            "B14 one label in two threads",
            "a: JMP a\n.\na: HALT\n.\n",
            2,
            0,
        ),
    ]
}

fn checks(from: u16, to: u16) -> String {
    (from..to)
        .map(|number| format!("CHECK {number}\n"))
        .collect()
}

fn order_of_refusals() -> Vec<Example> {
    let thirty_one = "FENCE\n".repeat(31);
    let nine = checks(0, 9);
    vec![
        accepted("B10 32 statements", &format!("{thirty_one}HALT\n."), 32, 0),
        accepted("B10 32 statements", &format!("{thirty_one}."), 32, 0),
        refused("B10 a 33rd gained", &format!("{thirty_one}JZ 0\n."), 5, 0),
        refused("B10 33", &format!("{thirty_one}FENCE\nHALT\n."), 5, 0),
        accepted("B16 four threads", &"HALT\n.\n".repeat(4), 4, 0),
        refused(
            "B16 4 before 5",
            &format!("{}.\n", "HALT\n.\n".repeat(4)),
            4,
            0,
        ),
        refused("B16 5 before 6", "JMP 9\n.\n.\n", 5, 0),
        refused("B16 6 before 7", &format!("{nine}JMP a\n."), 6, 0),
        refused("B16 7 before 8", &format!("{nine}.\n1 1\n1 1"), 7, 0),
        refused("B16 3 before 4", "1 70000", 3, 1),
        accepted("B17 8 checkpoints", &format!("{}.", checks(7, 15)), 9, 0),
        refused("B17 9 checkpoints", &format!("{nine}."), 7, 0),
        refused(
            "B17 9 in two threads",
            &format!("HALT\n{}.\n{}.", checks(0, 5), checks(4, 9)),
            7,
            0,
        ),
        accepted(
            "B17 the same 8 in two threads",
            &format!("{0}.\n{0}.", checks(0, 8)),
            18,
            0,
        ),
    ]
}

fn maps() -> Vec<Example> {
    let cells = |count: usize| -> String {
        let lines = (0..count).rev().map(|at| format!("{} {at}\n", at * 500));
        format!("HALT\n.\n{}", lines.collect::<String>())
    };
    vec![
        accepted("C1 any order", "HALT\n.\n9 1\n3 2\n65535 0\n0 7\n", 1, 4),
        accepted("C1 blanks", "HALT\n.\n \t9\t 1 \n", 1, 1),
        refused("C2 a doubled address", "HALT\n.\n1 5\n2 5\n1 5", 8, 0),
        refused("C2 a doubled address", "HALT\n.\n1 5\n01 5", 8, 0),
        accepted("C3 128 cells", &cells(128), 1, 128),
        refused("C3 129 cells", &cells(129), 8, 0),
        accepted(
            "C3 lines without a cell",
            &format!("{}#\n\n", cells(128)),
            1,
            128,
        ),
        refused("C4 one number", "HALT\n.\n1", 2, 3),
        refused("C4 one number", "HALT\n.\n1 # 2", 2, 3),
        refused("C4 three numbers", "HALT\n.\n1 2 3", 2, 3),
        refused("C4 two numbers", "HALT\n.\n1,2", 2, 3),
        refused("C4 two numbers", "HALT\n.\n1 [2]", 2, 3),
        refused("C4 two numbers", "HALT\n.\n1: 2", 2, 3),
        refused("C4 65,536", "HALT\n.\n65536 1", 3, 3),
        refused("C4 65,536", "HALT\n.\n1 65536", 3, 3),
    ]
}
