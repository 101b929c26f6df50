//! The program `listing`: what it prints for a text on standard input.

use std::io::Write;
use std::process::{Command, Stdio};

fn printed(text: &[u8]) -> String {
    let mut program = Command::new(env!("CARGO_BIN_EXE_listing"))
        .stdin(Stdio::piped())
        .stdout(Stdio::piped())
        .spawn()
        .expect("the program starts");
    let mut input = program.stdin.take().expect("it is piped");
    // The program stops reading a text that is too long, so that writing the rest may fail.
    let _ = input.write_all(text);
    drop(input);
    let output = program.wait_with_output().expect("the program ends");
    assert!(output.status.success());
    String::from_utf8(output.stdout).expect("it prints ASCII")
}

#[test]
fn document_01s_example() {
    let text = b"ADDI 1\nSTORE 0\n.\nLOAD 0\nJZ 3\nEXIT 0\nEXIT 7\n.\n0 0\n";
    let lines = [
        "0 0 ADDI 1 0 0 0 0 0 {}",
        "0 1 STORE 0 1 0 0 0 0 {}",
        "1 0 LOAD 0 0 0 0 0 0 {}",
        "1 1 JZ 3 0 0 0 0 0 {}",
        "1 3 EXIT 7 0 0 0 0 0 {}",
        "end 7",
    ];
    assert_eq!(printed(text), lines.join("\n") + "\n");
}

#[test]
fn texts_of_16384_bytes_and_more() {
    let mut text = b"EXIT 2\n.\n".to_vec();
    text.resize(16_384, b'\n');
    assert_eq!(printed(&text), "0 0 EXIT 2 0 0 0 0 0 {}\nend 2\n");
    for length in [16_385, 65_536, 10_000_000] {
        text.resize(length, b'\n');
        assert_eq!(printed(&text), "refused 1\n");
    }
    assert_eq!(printed(b""), "refused 4\n");
}
