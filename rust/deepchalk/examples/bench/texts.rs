//! The set texts that reading is timed on.

/// Document 01's example for the listing.
pub const SMALL: &str = "ADDI 1\nSTORE 0\n.\nLOAD 0\nJZ 3\nEXIT 0\nEXIT 7\n.\n0 0\n";

/// Four threads of so many statements, every fourth with a label and every eighth a jump to one, and
/// four cells for each of these by falling address.
pub fn dense(statements: usize) -> String {
    let mut text = String::new();
    for thread in 0..4 {
        let line = |pc| statement(thread, pc);
        text += &(0..statements - 1).map(line).collect::<String>();
        text += "JMP label_0\n.\n";
    }
    let cells = (0..4 * statements).rev();
    text + &cells
        .map(|at| format!("{} {at}\n", at * 509))
        .collect::<String>()
}

fn statement(thread: usize, pc: usize) -> String {
    let number = thread * 16_000 + pc * 37;
    match pc % 8 {
        0 => format!("label_{pc}: LOAD [{number}]\n"),
        1 => format!("ADDI {number}\n"),
        2 => format!("STORE {number}\n"),
        3 => "FENCE\n".to_string(),
        4 => format!("label_{pc}: MEM {number}\n"),
        5 => format!("CAS [{number}]\n"),
        6 => format!("CHECK {thread}\n"),
        _ => format!("JNZ label_{}\n", pc / 8 * 8),
    }
}

/// The same with blanks and comments, filled up to 512 bytes a statement of a thread: 16,384 bytes for
/// 32 statements.
pub fn full(statements: usize) -> String {
    let (dense, length) = (dense(statements), 512 * statements);
    let extra = (length - dense.len()) / dense.lines().count();
    let comment = "what this line is for, in as many words as fit here ".repeat(2);
    let line = |line: &str| match line {
        "." => "  . \n".to_string(),
        _ => format!("    {line}  # {}\n", &comment[..extra - 8]),
    };
    let text: String = dense.lines().map(line).collect();
    let rest = length - text.len();
    text + &"\n".repeat(rest)
}
