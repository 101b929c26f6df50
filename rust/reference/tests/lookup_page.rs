//! docs/ARCHITECTURE.md, "One look-up, turn by turn": its memories and turns are those of the second encoder and
//! evaluator, and those that crates/claims/proofs/Samples.antt shows to be the definitions'.

use reference::formula::operation::{FIRST, READ, WRITE};
use reference::{
    encode, first_false, formulas, read, table_size, Assignment, Cell, Choice, Evaluation, Formula,
    Model,
};

const PAGE: &str = include_str!("../../../docs/ARCHITECTURE.md");
const PROOF: &str = include_str!("../../../crates/claims/proofs/Samples.antt");

const TEXT: &[u8] = b"ADDI 7\nSTORE 5\nFENCE\nLOAD 5\nEXIT 1\n.\n";
const BOUND: u64 = 6;

fn table() -> Vec<Formula> {
    let set = read(TEXT, 4096, 4096).expect("accepted").set;
    let size = table_size(&set, &[], BOUND).expect("accepted");
    let mut table = vec![0; size as usize * 16];
    assert_eq!(encode(&set, &[], BOUND, &mut table), Ok(size));
    formulas(&table)
}

/// Executes in each step but flushes in step 2; cell 5 is 3.
fn assignment() -> Assignment {
    let mut run = [Choice::Execute(0); BOUND as usize];
    run[2] = Choice::Flush(0);
    let cell = Cell {
        address: 5,
        value: 3,
    };
    Model::of_run(&run, 1, BOUND as usize, vec![cell]).assignment()
}

/// The tables of the page's section, as rows of cells, the two head rows left out.
fn tables() -> Vec<Vec<Vec<String>>> {
    let (_, section) = PAGE
        .split_once("### One look-up, turn by turn\n")
        .expect("the section");
    let (section, _) = section.split_once("\n## ").expect("its end");
    let mut tables: Vec<Vec<Vec<String>>> = Vec::new();
    let mut inside = false;
    for line in section.lines() {
        let row = line.strip_prefix("| ").and_then(|l| l.strip_suffix(" |"));
        let ruler = line.starts_with("|---");
        match row {
            Some(row) if inside => {
                let cells = row.split('|').map(|cell| cell.trim().to_string()).collect();
                tables.last_mut().expect("a table").push(cells);
            }
            _ if ruler => tables.push(Vec::new()),
            _ => {}
        }
        inside = ruler || inside && row.is_some();
    }
    tables
}

fn number(word: &str) -> usize {
    word.parse().unwrap_or_else(|_| panic!("{word}: no number"))
}

/// What a memory's record says, in the page's words.
fn said(table: &[Formula], values: &Evaluation, memory: usize) -> String {
    let Formula { b, c, .. } = table[memory];
    match table[memory].operation {
        FIRST => "first memory".to_string(),
        WRITE => format!("write {} at {}", values.word(c), values.word(b)),
        other => panic!("record {memory} has operation {other}"),
    }
}

#[test]
fn the_memories_of_the_page() {
    let (table, assignment) = (table(), assignment());
    assert_eq!(first_false(&table, &assignment), None);
    let values = Evaluation::whole(&table, &assignment);
    let rows = &tables()[0];
    let memories: Vec<usize> = (0..table.len())
        .filter(|i| [FIRST, WRITE].contains(&table[*i].operation))
        .collect();
    let listed: Vec<usize> = rows.iter().map(|row| number(&row[0])).collect();
    assert_eq!(listed, memories);
    for row in &rows[1..] {
        let memory = number(&row[0]);
        assert_eq!(said(&table, &values, memory), format!("write {}", row[2]));
        assert_eq!(table[memory].a as usize, number(&row[3]));
    }
    assert!(PAGE.contains(&format!("The table has {} records.", table.len())));
}

#[test]
fn the_turns_of_the_page() {
    let (table, assignment) = (table(), assignment());
    let values = Evaluation::whole(&table, &assignment);
    for (turns, read) in tables()[1..].iter().zip([220, 126]) {
        assert_eq!(table[read].operation, READ);
        let (memory, address) = (table[read].a, values.word(table[read].b));
        let sentence = format!("record {read} reads memory {memory} at {address}");
        assert!(PAGE.contains(&sentence), "{sentence}");
        let (cell, visited) = values.look_up(read);
        assert_eq!(turns.len(), visited.len());
        for (turn, (row, memory)) in turns.iter().zip(&visited).enumerate() {
            assert_eq!(number(&row[0]), turn + 1);
            assert_eq!(number(&row[1]), *memory as usize);
            assert_eq!(row[2], said(&table, &values, *memory as usize));
        }
        let last = &turns.last().expect("a turn")[3];
        assert!(last.ends_with(&format!(" {cell}")), "{last}");
        // the proof's: visited .. READ .. ≡ MEMORY ∷ .. ∷ []
        let list: String = visited.iter().map(|m| format!("{m} ∷ ")).collect();
        let shown = format!("visited run table {read} records words ≡ {list}[]");
        assert!(PROOF.contains(&shown), "{shown}");
        let shown = format!("cell run table {read} records words ≡ {cell}\n");
        assert!(PROOF.contains(&shown), "{shown}");
    }
    assert_eq!(tables().len(), 3);
}
