//! The second listing: what document 01's listing program prints for a set text.

use crate::records::MAX_SET_MAP;
use crate::trace::{Step, MAX_STEPS};
use crate::{accept_map, accept_set, read, Cell, Choice, End, Machine, Statement};

/// The lines of the steps, then "end CODE", "stuck", "open" or "refused NUMBER".
pub fn listing(text: &[u8]) -> Vec<u8> {
    let read = match read(text, usize::MAX, usize::MAX) {
        Ok(read) => read,
        Err(refusal) => return format!("refused {}\n", refusal.number).into_bytes(),
    };
    let set = accept_set(&read.set).expect("a text's statements are an accepted set");
    let map = accept_map(&read.map, MAX_SET_MAP).expect("a text's cells are an accepted map");
    let mut machine = Machine::fresh(&set, map);
    let mut lines = String::new();
    for _ in 0..MAX_STEPS {
        let Some(choice) = next_choice(&machine) else {
            break;
        };
        let line = step_line(&Step::of(&machine, choice));
        // "14 comes after the lines of the steps before it."
        if machine.step(choice).is_err() {
            return (lines + "refused 14\n").into_bytes();
        }
        lines += &line;
    }
    (lines + &last_line(machine.end())).into_bytes()
}

/// "The lowest thread that can execute, else the lowest that can flush." A choice that will read a
/// lacking cell is taken all the same.
fn next_choice(machine: &Machine) -> Option<Choice> {
    machine.choices().find(|&choice| machine.permitted(choice))
}

/// "Thread, pc, word, argument (- for none), accu, mem, adr, val, full, and the cell that the
/// previous step wrote."
pub fn step_line(step: &Step) -> String {
    format!(
        "{} {} {} {} {} {} {} {} {} {}\n",
        step.thread,
        step.pc,
        step.word(),
        argument_item(step.statement),
        step.accu,
        step.mem,
        step.adr,
        step.val,
        u8::from(step.full),
        written_item(step.written),
    )
}

/// "An indirect argument prints in brackets." A jump's is its pc, also where the text has a label.
fn argument_item(statement: Option<Statement>) -> String {
    match statement {
        Some(statement) if statement.indirect => format!("[{}]", statement.argument),
        Some(statement) if statement.instruction.has_argument() => statement.argument.to_string(),
        _ => "-".to_string(),
    }
}

/// "A written cell as {(4,10)}", "{} if none."
fn written_item(written: Option<Cell>) -> String {
    match written {
        Some(Cell { address, value }) => format!("{{({address},{value})}}"),
        None => "{}".to_string(),
    }
}

fn last_line(end: End) -> String {
    match end {
        End::Code(code) => format!("end {code}\n"),
        End::Stuck => "stuck\n".to_string(),
        End::Open => "open\n".to_string(),
    }
}

#[cfg(test)]
mod tests {
    use super::*;

    /// The listing of a text whose lines are parted by " / ".
    fn listed(text: &str) -> String {
        String::from_utf8(listing(text.replace(" / ", "\n").as_bytes())).unwrap()
    }

    #[test]
    fn document_01s_example() {
        let text = "ADDI 1\nSTORE 0\n.\nLOAD 0\nJZ 3\nEXIT 0\nEXIT 7\n.\n0 0\n";
        assert_eq!(
            listed(text),
            "0 0 ADDI 1 0 0 0 0 0 {}\n\
             0 1 STORE 0 1 0 0 0 0 {}\n\
             1 0 LOAD 0 0 0 0 0 0 {}\n\
             1 1 JZ 3 0 0 0 0 0 {}\n\
             1 3 EXIT 7 0 0 0 0 0 {}\n\
             end 7\n"
        );
    }

    #[test]
    fn a_matching_cas_shows_the_cell_it_wrote() {
        assert_eq!(
            listed("MEM 4 / ADDI 1 / CAS 4 / LOAD [7] / . / 4 9 / 7 4"),
            "0 0 MEM 4 0 0 0 0 0 {}\n\
             0 1 ADDI 1 9 9 0 0 0 {}\n\
             0 2 CAS 4 10 9 0 0 0 {}\n\
             0 3 LOAD [7] 1 9 0 0 0 {(4,10)}\n\
             0 4 HALT - 10 9 0 0 0 {}\n\
             end 0\n"
        );
    }

    #[test]
    fn flushes_come_when_no_thread_can_execute() {
        // Both threads fill their buffers first; then thread 0 flushes and goes on.
        assert_eq!(
            listed("ADDI 7 / STORE 3 / FENCE / . / STORE 4 / HALT / ."),
            "0 0 ADDI 7 0 0 0 0 0 {}\n\
             0 1 STORE 3 7 0 0 0 0 {}\n\
             1 0 STORE 4 0 0 0 0 0 {}\n\
             0 2 FLUSH - 7 0 3 7 1 {}\n\
             0 2 FENCE - 7 0 3 7 0 {(3,7)}\n\
             0 3 HALT - 7 0 3 7 0 {}\n\
             1 1 FLUSH - 0 0 4 0 1 {}\n\
             1 1 HALT - 0 0 4 0 0 {(4,0)}\n\
             end 0\n"
        );
    }

    #[test]
    fn a_jump_by_label_prints_its_pc() {
        assert_eq!(
            listed("JMP last / EXIT 1 / last: EXIT 65535 / ."),
            "0 0 JMP 2 0 0 0 0 0 {}\n0 2 EXIT 65535 0 0 0 0 0 {}\nend 65535\n"
        );
    }

    #[test]
    fn stuck_after_its_last_step() {
        let lines = "0 0 CHECK 1 0 0 0 0 0 {}\n1 0 HALT - 0 0 0 0 0 {}\nstuck\n";
        assert_eq!(listed("CHECK 1 / . / HALT / CHECK 1 / ."), lines);
    }

    #[test]
    fn open_after_64_steps_and_ended_in_the_64th() {
        let open = listed("JMP 0 / .");
        assert_eq!(open.lines().count(), 65);
        assert!(open.ends_with("0 0 JMP 0 0 0 0 0 0 {}\nopen\n"));
        // Twice 31 statements and HALT make 64 steps.
        let thread = "FENCE / ".repeat(31);
        let ended = listed(&format!("{thread}HALT / . / {thread}. / "));
        assert_eq!(ended.lines().count(), 65);
        assert!(ended.ends_with("1 31 HALT - 0 0 0 0 0 {}\nend 0\n"));
    }

    #[test]
    fn a_lacking_cell_comes_after_the_lines_before_it() {
        assert_eq!(
            listed("ADDI 2 / LOAD 5 / . / EXIT 1 / . / 4 0"),
            "0 0 ADDI 2 0 0 0 0 0 {}\nrefused 14\n"
        );
        assert_eq!(listed("CAS 5 / ."), "refused 14\n");
    }

    #[test]
    fn refused_texts() {
        for (text, number) in [
            ("HALT / . # no dot line / ", 2),
            ("ADDI 65536 / .", 3),
            ("", 4),
            (".", 5),
            ("JMP a / .", 6),
            ("HALT / . / 1 2 / 01 2", 8),
        ] {
            assert_eq!(listed(text), format!("refused {number}\n"));
        }
        assert_eq!(listed(&"#".repeat(16_385)), "refused 1\n");
    }
}
