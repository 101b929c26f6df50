//! Prints what the second simulator answers to the cases of `reference::cases`: the expected output
//! of the proved program. With `--rattle` it prints the cases' inputs as Rattle constants instead.

use reference::cases::{all, litmus_cases, reports, Case, LitmusCase};
use std::io::{self, Write};
use std::process::ExitCode;

fn main() -> ExitCode {
    let options: Vec<String> = std::env::args().skip(1).collect();
    let text = match options.as_slice() {
        [] => reports(),
        [option] if option == "--rattle" => rattle(),
        _ => {
            eprintln!("usage: cases [--rattle]");
            return ExitCode::from(2);
        }
    };
    match io::stdout().write_all(text.as_bytes()) {
        Ok(()) => ExitCode::SUCCESS,
        Err(_) => ExitCode::FAILURE,
    }
}

fn rattle() -> String {
    let samples: Vec<u8> = all().iter().flat_map(sample_parts).collect();
    let litmus: Vec<u8> = litmus_cases().iter().flat_map(litmus_parts).collect();
    let constants = [constant("SAMPLES", &samples), constant("LITMUS", &litmus)];
    [HEAD, &constants.join("\n")].concat()
}

/// The first lines of crates/cases/src/data.rt, which is this program's output.
const HEAD: &str = "// The cases, as the program `cases` of rust/reference prints them with --rattle. Each has six parts: a name, a set, a map, the accu and\n// the mem of each thread in the outcome asked for (255 where any will do), a short name, and a schedule. A part is its length in two\n// bytes, the low one first, then its bytes. A sample asks for no outcome; a litmus test has a schedule where its outcome is allowed.\n";

fn sample_parts(case: &Case) -> Vec<u8> {
    let name = case.name.as_bytes();
    let (set, map) = (case.set(), case.map());
    parts([name, &set, &map, &[], name, &case.schedule])
}

fn litmus_parts(case: &LitmusCase) -> Vec<u8> {
    let name = case.litmus.name.as_bytes();
    let number = case.litmus.number();
    let (set, map, asked) = (case.set(), case.map(), case.litmus.asked());
    let schedule = case.schedule().unwrap_or_default();
    parts([name, &set, &map, &asked, number.as_bytes(), schedule])
}

fn parts(parts: [&[u8]; 6]) -> Vec<u8> {
    let part = |part: &[u8]| {
        let length = u16::try_from(part.len()).expect("a short part");
        [&length.to_le_bytes(), part].concat()
    };
    parts.map(part).concat()
}

/// Printable characters stand for themselves.
fn constant(name: &str, bytes: &[u8]) -> String {
    let character = |&byte: &u8| match byte {
        b'\\' | b'"' => format!("\\x{byte:02x}"),
        b' '..=b'~' => char::from(byte).to_string(),
        _ => format!("\\x{byte:02x}"),
    };
    let characters: String = bytes.iter().map(character).collect();
    let count = bytes.len();
    format!("pub const {name}: [u8; {count}] =\n    *b\"{characters}\";\n")
}
