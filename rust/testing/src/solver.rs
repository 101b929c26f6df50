//! A solver for tables: each table becomes an SMT-LIB script for z3, and z3's answer becomes a model.

use crate::tables::Table;
use reference::script::{script, values};
use reference::Model;
use std::io::{self, Write};
use std::process::{Command, Stdio};

#[derive(Clone, Debug, PartialEq, Eq)]
pub enum Verdict {
    Satisfiable(Model),
    Unsatisfiable,
}

/// Whether z3 can be run here. Says so where it cannot, past the test runner, which keeps what passing
/// tests print.
pub fn installed(test: &str) -> bool {
    let version = Command::new("z3").arg("--version").output();
    let installed = version.is_ok_and(|output| output.status.success());
    if !installed {
        let _ = writeln!(io::stderr(), "{test}: skipped, z3 is not installed");
    }
    installed
}

/// z3's verdict on the table.
pub fn solve(table: &Table) -> Verdict {
    let output = run(&script(&table.formulas));
    let (verdict, values) = output.split_once('\n').unwrap_or((&output, ""));
    match verdict.trim() {
        "unsat" => Verdict::Unsatisfiable,
        "sat" => Verdict::Satisfiable(model(table, values)),
        _ => panic!("z3 answers {output}"),
    }
}

fn run(script: &str) -> String {
    let mut z3 = Command::new("z3")
        .args(["-smt2", "-in"])
        .stdin(Stdio::piped())
        .stdout(Stdio::piped())
        .spawn()
        .expect("z3 runs");
    let mut input = z3.stdin.take().expect("it is piped");
    // Nothing is printed before the whole script is read.
    input.write_all(script.as_bytes()).expect("z3 reads it");
    drop(input);
    let output = z3.wait_with_output().expect("z3 ends");
    String::from_utf8(output.stdout).expect("z3 prints ASCII")
}

// ---- the model

fn model(table: &Table, printed: &str) -> Model {
    let values = values(printed).expect("z3 gives the values");
    let threads = table.set.threads.len();
    assert_eq!(values.bits.len(), 2 * threads * table.bound);
    Model {
        threads,
        bits: values.bits,
        cells: values.cells,
    }
}
