//! docs/TABLE.md: its table of EXIT 1 is the second encoder's, and the one that
//! crates/encoding/proofs/Samples.antt shows to be the definition's.

use reference::{encode, formulas, table_size, Formula};

const PAGE: &str = include_str!("../../../docs/TABLE.md");
const PROOF: &str = include_str!("../../../crates/encoding/proofs/Samples.antt");

/// The records in the page's block, whose numbers count up from 0.
fn records_of_the_page() -> Vec<Formula> {
    let block = PAGE.split("```\n").nth(1).expect("a block");
    block.lines().enumerate().map(record).collect()
}

fn record((index, line): (usize, &str)) -> Formula {
    let (number, fields) = line.trim().split_once(' ').expect("blanks between");
    assert_eq!(number, index.to_string());
    formula(fields)
}

/// From its six fields and what follows.
fn formula(text: &str) -> Formula {
    let fields: Vec<u32> = text
        .split_whitespace()
        .take(6)
        .map(|word| word.parse().expect("a number"))
        .collect();
    Formula {
        operation: fields[0] as u8,
        sort: fields[1] as u8,
        constant: fields[2] as u16,
        a: fields[3],
        b: fields[4],
        c: fields[5],
    }
}

/// The records in the proof's list, each after the word `formula`.
fn records_of_the_proof() -> Vec<Formula> {
    let (_, list) = PROOF.split_once("page =\n").expect("the list");
    let (list, _) = list.split_once("∷ []").expect("its end");
    list.split("formula ").skip(1).map(formula).collect()
}

#[test]
fn the_table_of_exit_1() {
    let set = [0, 18, 0, 0, 1, 0, 0, 0];
    let size = table_size(&set, &[], 1).expect("accepted");
    let mut table = vec![0; size as usize * 16];
    assert_eq!(encode(&set, &[], 1, &mut table), Ok(size));
    assert_eq!(records_of_the_page(), formulas(&table));
    assert_eq!(records_of_the_proof(), formulas(&table));
}
