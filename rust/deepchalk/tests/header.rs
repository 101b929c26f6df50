//! The C header against the library: C programs are compiled, linked and run.

use std::path::{Path, PathBuf};
use std::process::{Command, Output};

fn repository() -> PathBuf {
    Path::new(env!("CARGO_MANIFEST_DIR")).join("../..")
}

/// Compiles the program and gives where it is.
fn compiled(source: &str) -> PathBuf {
    let source = repository().join(source);
    let name = source.file_stem().expect("a file");
    let program = Path::new(env!("CARGO_TARGET_TMPDIR")).join(name);
    // The C compiler that Rust links with.
    let compiled = Command::new("cc")
        .args(["-std=c99", "-Wall", "-Wextra", "-Wpedantic", "-Werror"])
        .arg("-I")
        .arg(repository().join("include"))
        .arg("-o")
        .arg(&program)
        .arg(source)
        .arg(env!("DEEPCHALK_LIB"))
        .output()
        .expect("cc runs");
    assert!(
        compiled.status.success(),
        "{}",
        String::from_utf8_lossy(&compiled.stderr)
    );
    program
}

#[test]
fn a_c_program_gets_the_answers() {
    let program = compiled("rust/deepchalk/tests/header.c");
    let ran = Command::new(program).output().expect("the program runs");
    assert!(ran.status.success());
    let texts = ["0 0 3 2", "9 17 3 9", "11 0 0 0", "2 3 0 0"];
    let tables = ["0 32", "10 0", "0 32", "16", "11 0"];
    // The constraint of step 1 is record 52.
    let models = [
        "0 0", "0 2 1", "18 9 5 9", "11 0 0", "0 0 0 0", "16 52", "15 0",
    ];
    let runs = [
        "0 0 0 3 3",
        "0 0 0 3 3",
        "0 0 2 0 2",
        "12 3 0 0 0",
        "11 0 0 0 0",
        "17 0 0 0 0",
        "13 1 0 0 0",
    ];
    let expected = [&texts[..], &tables, &models, &runs].concat().join("\n") + "\n";
    assert_eq!(String::from_utf8_lossy(&ran.stdout), expected);
}

#[test]
fn the_c_example_runs_a_schedule() {
    let program = compiled("examples/c/run_schedule.c");
    let litmus = "examples/litmus/intel-03.txt";
    let run = |file: &str, choices: &str| {
        let mut command = Command::new(&program);
        command.current_dir(repository()).arg(file);
        let choices = choices.split_whitespace();
        said(command.args(choices).output().expect("the program runs"))
    };
    let long = "0 ".repeat(65);
    for (file, choices, status, words) in [
        (litmus, "0 0 0 1 1 1 0 1 0 1 0", 0, "11 steps, end 1\n"),
        (litmus, "0 0 f0 1 1 1", 0, "6 steps, open\n"),
        (
            litmus,
            "0 0 0 0 0 0",
            1,
            "simulation refused: number 12, place 5\n",
        ),
        (litmus, &long, 1, "simulation refused: number 17, place 0\n"),
        (
            "include/deepchalk.h",
            "0",
            1,
            "reading refused: number 2, place 1\n",
        ),
        (litmus, "4", 2, "4: is no choice\n"),
        (
            "examples/none.txt",
            "0",
            2,
            "examples/none.txt: cannot be opened\n",
        ),
    ] {
        assert_eq!(run(file, choices), (Some(status), words.to_string()));
    }
}

/// The status and what is printed, on either stream.
fn said(output: Output) -> (Option<i32>, String) {
    let printed = [output.stdout, output.stderr].concat();
    (
        output.status.code(),
        String::from_utf8_lossy(&printed).into(),
    )
}
