//! How the library's time grows: with the bound or the steps, with the statements, with the text.

use crate::calls::{check, decode, encode, read, records, replay, simulate, table_size};
use crate::inputs::{
    checkpoints, failing, litmus, memory_heavy, of_one_sort, store_loop, Workload,
};
use crate::page::{columns, count, heading, ratio_row, short, whole};
use crate::texts;
use crate::timing::Times;
use testing::models::ModelInput;

pub fn print() {
    with_bound();
    with_bound_of_small_sets();
    with_bound_of_one_sort();
    with_statements();
    with_text();
}

fn with_bound() {
    heading(
        "Growth with K",
        "Four threads of 32 statements over a map of 128 cells: runs of K steps, tables for the bound K.",
    );
    columns(
        1,
        &["Call", "K", "records", "library ns", "ns a step", "ratio"],
    );
    let bounds = [1, 2, 4, 16, 64];
    for bound in bounds {
        let work = memory_heavy(32).cut(bound);
        print_row("simulate", bound, None, bound, simulate(&work));
    }
    for bound in bounds {
        let work = memory_heavy(32).cut(bound);
        print_row("replay", bound, None, bound, replay(&work));
    }
    for (call, time) in [
        ("encode", encode as fn(&_) -> Times),
        ("check", check),
        ("decode", decode),
    ] {
        for bound in bounds {
            let input = failing(32, bound);
            print_row(call, bound, Some(records(&input)), bound, time(&input));
        }
    }
}

fn with_bound_of_small_sets() {
    heading(
        "Growth with K, small sets",
        "Tables of the store-buffer litmus test with its outcome, whose own bound is 15; of one thread of three statements; of four threads with eight checkpoints each.",
    );
    table_columns();
    for (name, input) in [
        ("litmus test", litmus()),
        ("store loop", only_a_table(store_loop())),
        ("eight checkpoints", only_a_table(checkpoints())),
    ] {
        for bound in [1, 2, 4, 8, 15, 64] {
            print_table(name, &input.set, &input.map, bound);
        }
    }
}

fn with_bound_of_one_sort() {
    heading(
        "Growth with K, statements of one sort",
        "Tables of four threads of 31 statements of one sort and a jump to the first: where a table is mostly one part, that part shows.",
    );
    table_columns();
    for (name, set) in of_one_sort() {
        for bound in [1, 2, 4, 64] {
            print_table(name, &set, &[], bound);
        }
    }
}

fn table_columns() {
    columns(
        2,
        &[
            "Call",
            "Set",
            "K",
            "records",
            "library ns",
            "second ns",
            "ratio",
        ],
    );
}

fn print_table(name: &str, set: &[u8], map: &[u8], bound: u64) {
    let input = ModelInput {
        set: set.to_vec(),
        map: map.to_vec(),
        bound,
        model: Vec::new(),
    };
    let times = encode(&input);
    let cells = [
        "encode".to_string(),
        name.to_string(),
        count(bound as usize),
        count(records(&input)),
        whole(times.library),
        whole(times.second),
    ];
    ratio_row(&cells, times.ratio);
}

/// What a table is made of; the bound comes later.
fn only_a_table(work: Workload) -> ModelInput {
    ModelInput {
        set: work.set,
        map: work.map,
        bound: 1,
        model: Vec::new(),
    }
}

fn with_statements() {
    heading(
        "Growth with statements",
        "The same with 4, 8, 16 and 32 statements a thread, at K 16.",
    );
    columns(
        1,
        &[
            "Call",
            "statements",
            "records",
            "library ns",
            "ns a statement",
            "ratio",
        ],
    );
    let (bound, sizes) = (16, [4, 8, 16, 32]);
    for size in sizes {
        let work = memory_heavy(size).cut(bound);
        print_row("simulate", 4 * size, None, 4 * size, simulate(&work));
    }
    for (call, time) in [
        ("table size", table_size as fn(&_) -> Times),
        ("encode", encode),
        ("check", check),
        ("decode", decode),
    ] {
        for size in sizes {
            let input = failing(size, bound);
            let records = Some(records(&input));
            print_row(call, 4 * size, records, 4 * size, time(&input));
        }
    }
}

fn with_text() {
    heading(
        "Growth with text length",
        "Texts of four threads with labels, jumps, comments and a map, as many cells as statements.",
    );
    columns(
        1,
        &[
            "Call",
            "bytes",
            "statements",
            "library ns",
            "ns a byte",
            "ratio",
        ],
    );
    for statements in [2, 4, 8, 16, 32] {
        let text = texts::full(statements);
        let bytes = text.len();
        print_row("read", bytes, Some(4 * statements), bytes, read(&text));
    }
}

/// The time, and the time for each of so many units.
fn print_row(call: &str, size: usize, part: Option<usize>, units: usize, times: Times) {
    let cells = [
        call.to_string(),
        count(size),
        part.map_or(String::new(), count),
        whole(times.library),
        short(times.library / units as f64),
    ];
    ratio_row(&cells, times.ratio);
}
