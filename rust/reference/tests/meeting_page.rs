//! docs/USE.md, "A meeting, step by step": its table is what the second simulator does.

use reference::{accept_set, read, Choice, Machine};

const PAGE: &str = include_str!("../../../docs/USE.md");

const TEXT: &[u8] = b"CHECK 0\nCHECK 0\nEXIT 1\n.\nCHECK 0\nJMP 0\n.\n";

/// The rows of the section's table, the two head rows left out.
fn rows() -> Vec<Vec<String>> {
    let (_, section) = PAGE
        .split_once("### A meeting, step by step\n")
        .expect("the section");
    let (section, _) = section.split_once("\n## ").expect("its end");
    let rows = section.lines().filter(|line| line.starts_with("| "));
    rows.skip(1)
        .map(|row| {
            let cells = row.trim_matches('|').split('|');
            cells.map(|cell| cell.trim().to_string()).collect()
        })
        .collect()
}

fn listed(threads: impl Iterator<Item = usize>) -> String {
    let words: Vec<String> = threads.map(|thread| thread.to_string()).collect();
    words.join(", ")
}

fn marked(machine: &Machine) -> String {
    listed((0..2).filter(|&thread| machine.threads()[thread].mark == Some(0)))
}

#[test]
fn the_meeting_goes_as_the_page_says() {
    let records = read(TEXT, 64, 64).expect("accepted").set;
    let set = accept_set(&records).expect("accepted");
    let mut machine = Machine::fresh(&set, Vec::new());
    let rows = rows();
    assert_eq!(rows.len(), 6);
    for (step, row) in rows.iter().enumerate() {
        let open = if machine.open_checkpoint() == Some(0) {
            "open"
        } else {
            "shut"
        };
        let may = listed((0..2).filter(|&thread| machine.permitted(Choice::Execute(thread))));
        let before = marked(&machine);
        let thread: usize = row[4].parse().expect("a thread");
        machine
            .step(Choice::Execute(thread))
            .expect("no cell is read");
        let after = marked(&machine);
        let [step, open, choice] = [step.to_string(), open.to_string(), thread.to_string()];
        assert_eq!(*row, [step, before, open, may, choice, after]);
    }
    assert_eq!(machine.end(), reference::End::Code(1));
}
