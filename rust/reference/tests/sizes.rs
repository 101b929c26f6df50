//! Sizes of tables: their share of document 002's counts, and those of the largest sets. Run with
//! --nocapture to see them.

use reference::sizes::{beside_document_002, full_sets, largest, size};
use reference::{Instruction, Statement};

/// At most this share of document 002's expressions.
const SHARE: f64 = 0.40;
/// For four threads of 32 statements at K 64.
const FULL_RECORDS: usize = 62_000;

#[test]
fn sizes_beside_document_002s() {
    for size in beside_document_002() {
        let share = size.share();
        println!(
            "{:<72} {:>5} {:>8} {:>8} {share:>6.3}",
            size.name, size.bound, size.records, size.expressions
        );
        assert!(share <= SHARE, "{}", size.name);
    }
}

#[test]
fn sizes_of_full_sets() {
    println!("four threads of 32 statements, map of 128 cells, K 64");
    for (name, records) in full_sets() {
        println!("{records:>8} records: {name}");
    }
    let [(_, mix), (_, largest)] = full_sets();
    assert!(mix <= FULL_RECORDS);
    assert_eq!(
        largest,
        5 + 128 + 5 * 128 + 64 * (4 * (31 * 15 + 3) + 65) + 3
    );
}

/// No accepted set is larger than `largest`: one statement more of any word adds less.
#[test]
fn an_indirect_cas_is_the_largest_statement() {
    let base = size(&largest(), 0, 1);
    for word in Instruction::ALL {
        for indirect in [false, true] {
            if indirect && !word.is_memory() {
                continue;
            }
            let mut threads = largest();
            threads[0][0] = Statement {
                instruction: word,
                indirect,
                argument: 0,
            };
            assert!(size(&threads, 0, 1) <= base, "{}", word.word());
        }
    }
}
