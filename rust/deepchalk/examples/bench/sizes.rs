//! Table sizes beside document 002's counts.

use crate::page::{columns, count, heading, hundredths, row};
use reference::sizes::{beside_document_002, full_sets};

pub fn print() {
    heading(
        "Table sizes beside document 002's",
        "Records of a table, and expressions of document 002's functional encoding (its Tables 8, 9, 12 \
         and 14) of the same program for the same bound. Bounds above 64 are refused here; the records \
         are counted all the same.",
    );
    columns(1, &["Program", "K", "records", "expressions", "share"]);
    for size in beside_document_002() {
        row(&[
            size.name.clone(),
            size.bound.to_string(),
            count(size.records),
            count(size.expressions),
            hundredths(size.share()),
        ]);
    }
    println!();
    columns(
        1,
        &[
            "Four threads of 32 statements, map of 128 cells, K 64",
            "records",
        ],
    );
    for (name, records) in full_sets() {
        row(&[name.to_string(), count(records)]);
    }
}
