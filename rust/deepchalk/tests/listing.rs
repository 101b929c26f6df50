//! The program `listing`, which `rt ci`, and `rt run` in its folder, prove and build, against the second listing:
//! what it prints for random texts on standard input.

use reference::listing::listing;
use std::collections::BTreeMap;
use std::io::Write;
use std::path::Path;
use std::process::{Command, Stdio};
use testing::{texts, Random};

const TEXTS: u64 = 2_000;

/// Lines that the runs of these texts must end in, some of each.
const LAST_WORDS: [&str; 4] = ["end", "stuck", "open", "refused"];

fn printed(program: &Path, text: &[u8]) -> Vec<u8> {
    let mut child = Command::new(program)
        .stdin(Stdio::piped())
        .stdout(Stdio::piped())
        .spawn()
        .expect("the program starts");
    let mut input = child.stdin.take().expect("it is piped");
    // The program stops reading a text that is too long, so that writing the rest may fail.
    let _ = input.write_all(text);
    drop(input);
    child.wait_with_output().expect("the program ends").stdout
}

#[test]
fn program_and_second_listing_agree() {
    let program = Path::new(env!("CARGO_MANIFEST_DIR")).join("../../crates/listing/out/listing");
    assert!(
        program.is_file(),
        "{} is missing: run rt ci, or rt run in crates/listing, first",
        program.display()
    );
    let mut reached = BTreeMap::new();
    for seed in 1..=TEXTS {
        let mut random = Random::new(seed);
        let text = match seed % 4 {
            0 => texts::any(&mut random),
            _ => texts::valid(&mut random).0,
        };
        let expected = listing(&text);
        let got = printed(&program, &text);
        assert!(
            got == expected,
            "seed {seed}: printed\n{}\nfor\n{}",
            got.escape_ascii(),
            text.escape_ascii()
        );
        let last = expected.trim_ascii_end().rsplit(|&b| b == b'\n').next();
        let word = last.and_then(|line| line.split(|&b| b == b' ').next());
        let word = String::from_utf8_lossy(word.expect("a last line")).into_owned();
        *reached.entry(word).or_insert(0) += 1;
    }
    println!("{TEXTS} texts, by the last line's word: {reached:?}");
    for word in LAST_WORDS {
        assert!(reached.contains_key(word), "no listing ends in \"{word}\"");
    }
}
