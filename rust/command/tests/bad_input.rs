//! Bad input: one line on standard error, a status other than 0, and no file written.

mod shell;

use shell::{Folder, EXAMPLE};
use std::ffi::OsString;
use std::fs;
use std::os::unix::ffi::OsStringExt;

const BAD: i32 = 2;
const REFUSED: i32 = 3;

#[test]
fn commands_and_options() {
    let folder = Folder::with_example("options");
    for (line, error) in [
        ("", "no command; deepchalk help shows the commands"),
        ("frob", "no command frob; deepchalk help shows them"),
        ("Read set.txt", "no command Read; deepchalk help shows them"),
        ("read", "read needs FILE"),
        ("read set.txt x", "read takes FILE alone, not x"),
        ("read set.txt -o t", "read takes no option -o"),
        ("list set.txt --frob", "list takes no option --frob"),
        ("simulate set.txt", "simulate needs FILE and CHOICES"),
        ("check set.txt 3", "check needs FILE and K and MODEL"),
        ("encode set.txt 3 -o", "nothing follows -o"),
        ("encode set.txt 3 -o a -o b", "-o stands twice"),
        (
            "decode set.txt 3 model -o t -m t",
            "-o and -m both write to t",
        ),
        (
            "encode set.txt 3 -o - --json",
            "-o and --json both write to -",
        ),
        ("draw model", "draw needs -o FILE.svg"),
        (
            "encode set.txt 3 -o set.txt",
            "-o would replace the input set.txt",
        ),
        (
            "encode set.txt 3 -o ./set.txt",
            "-o would replace the input ./set.txt",
        ),
        (
            "replay - -",
            "- stands for standard input, which can be read once only",
        ),
        (
            "find set.txt 3 --solver cvc5",
            "no solver cvc5: z3 or search",
        ),
        (
            "find set.txt 3 --search --solver z3",
            "--search and --solver z3 exclude each other",
        ),
    ] {
        folder.fails(line, BAD, error);
    }
}

#[test]
fn numbers_and_choices() {
    let folder = Folder::with_example("numbers");
    for word in [
        "x",
        "-",
        "+3",
        "3.0",
        "0x3",
        "18446744073709551616",
        "",
        "3 ",
    ] {
        let shown = if word.is_empty() { "''" } else { word };
        let error = format!("K is a number from 1 to 64, not {shown}");
        for command in ["encode", "find"] {
            folder.fails_words(&[command, "set.txt", word], b"", BAD, &error);
        }
        folder.fails_words(&["check", "set.txt", word, "model"], b"", BAD, &error);
    }
    for bound in ["0", "65", "4294967297", "18446744073709551615"] {
        let error = format!("K {bound}: refused 10: bound not 1 to 64");
        folder.fails_words(
            &["encode", "set.txt", bound, "-o", "t"],
            b"",
            REFUSED,
            &error,
        );
        folder.fails_words(
            &["find", "set.txt", bound, "--search"],
            b"",
            REFUSED,
            &error,
        );
        folder.fails_words(&["decode", "set.txt", bound, "model"], b"", REFUSED, &error);
    }
    for word in ["x", "128", "f", "0,1", "F0", "f128", "+1"] {
        let error = format!("no choice: {word} (0 executes thread 0, f0 flushes it)");
        folder.fails_words(&["simulate", "set.txt", "0", word], b"", BAD, &error);
    }
}

#[test]
fn files_that_cannot_be_read() {
    let folder = Folder::with_example("unreadable");
    fs::create_dir(folder.path("folder")).expect("a folder");
    for (file, reason) in [
        ("missing", "No such file or directory"),
        ("folder", "Is a directory"),
        ("set.txt/x", "Not a directory"),
    ] {
        let error = format!("cannot read {file}: {reason}");
        for line in [
            format!("read {file}"),
            format!("list {file}"),
            format!("simulate {file} 0"),
            format!("simulate set.txt 0 --map {file}"),
            format!("replay {file} model"),
            format!("replay set.txt {file}"),
            format!("encode {file} 3 -o t"),
            format!("check set.txt 3 {file}"),
            format!("decode set.txt 3 {file} -o t -m m"),
            format!("show {file}"),
            format!("draw {file} -o t"),
            format!("find {file} 3"),
        ] {
            folder.fails(&line, BAD, &error);
        }
    }
}

#[test]
fn files_that_cannot_be_written() {
    let folder = Folder::with_example("unwritable");
    fs::create_dir(folder.path("folder")).expect("a folder");
    let words = ["simulate", "set.txt", "1 1 1", "-o", "trace"];
    assert_eq!(folder.run_words(&words, b"").status, 0);
    for (file, reason) in [
        ("missing/x", "No such file or directory"),
        ("folder", "Is a directory"),
        ("set.txt/x", "Not a directory"),
        ("", "entity not found"),
    ] {
        let shown = if file.is_empty() { "''" } else { file };
        let error = format!("cannot write {shown}: {reason}");
        let inputs: [&[&str]; 5] = [
            &["simulate", "set.txt", "1 1 1", "-o"],
            &["encode", "set.txt", "3", "-o"],
            &["draw", "trace", "-o"],
            // The first output could be written, and is not.
            &["decode", "set.txt", "3", "model", "-o", "t", "-m"],
            &["find", "set.txt", "5", "--search", "-o", "t", "--svg"],
        ];
        for words in inputs {
            folder.fails_words(&[words, &[file]].concat(), b"", BAD, &error);
        }
    }
}

#[test]
fn full_output() {
    let folder = Folder::with_example("full");
    let error = "cannot write /dev/full: No space left on device";
    folder.fails("simulate set.txt 1 1 1 -o /dev/full", BAD, error);
}

#[test]
fn refused_texts() {
    let folder = Folder::with_example("texts");
    let long = "#".repeat(16_385);
    let many = |line: &str, count| line.repeat(count) + ".\n";
    for (text, error) in [
        (long.as_str(), "refused 1: text above 16,384 bytes"),
        (
            "HALT\nFOO 1\n.\n",
            "refused 2: line malformed or forbidden byte, in line 2",
        ),
        (
            "ADDI 65536\n.\n",
            "refused 3: number above 65,535, in line 1",
        ),
        ("", "refused 4: threads not 1 to 4"),
        (
            &many("ADDI 1\n", 33),
            "refused 5: a thread's statements not 1 to 32",
        ),
        (
            "JMP a\n.\n",
            "refused 6: label doubled in a thread, unknown, or target beyond the last statement",
        ),
        (
            "CHECK 1\nCHECK 2\nCHECK 3\nCHECK 4\nCHECK 5\nCHECK 6\nCHECK 7\nCHECK 8\nCHECK 9\n.\n",
            "refused 7: more than 8 different checkpoints",
        ),
        (
            "HALT\n.\n1 2\n1 3\n",
            "refused 8: map address doubled, or above 128 cells in a text",
        ),
    ] {
        folder.put("bad.txt", text.as_bytes());
        let error = format!("bad.txt: {error}");
        for line in [
            "read bad.txt",
            "simulate bad.txt 0 -o t",
            "replay bad.txt model",
            "encode bad.txt 3 -o t",
            "check bad.txt 3 model",
            "decode bad.txt 3 model -o t -m m",
            "find bad.txt 3 -o t",
        ] {
            folder.fails(line, REFUSED, &error);
        }
        let error = error.replace("bad.txt", "standard input");
        folder.fails_words(&["read", "-"], text.as_bytes(), REFUSED, &error);
    }
}

/// Endless input is not read to its end.
#[test]
fn endless_input() {
    let folder = Folder::with_example("endless");
    let error = "/dev/zero: refused 1: text above 16,384 bytes";
    folder.fails("read /dev/zero", REFUSED, error);
    for line in ["show /dev/zero", "replay set.txt /dev/zero"] {
        let error =
            "/dev/zero: refused 17: schedule or trace above 64 steps, or trace not whole records";
        folder.fails(line, REFUSED, error);
    }
    let error = "/dev/zero: refused 15: model not as it must be";
    folder.fails("check set.txt 64 /dev/zero", REFUSED, error);
}

#[test]
fn refused_runs() {
    let folder = Folder::with_example("runs");
    let not_permitted = "refused 12: choice not permitted, or machine has exited, at step";
    let long = ["0"; 65].join(" ");
    for (choices, error) in [
        ("0 f0", format!("{not_permitted} 1")),
        ("2", format!("{not_permitted} 0")),
        ("1 1 1 1", format!("{not_permitted} 3")),
        (
            &long,
            "refused 17: schedule or trace above 64 steps, or trace not whole records".to_string(),
        ),
    ] {
        let words = ["simulate", "set.txt", choices, "-o", "t"];
        folder.fails_words(&words, b"", REFUSED, &format!("the schedule: {error}"));
    }
    folder.put("empty", b"");
    let lacks = "the schedule: refused 14: first cell read that the map lacks, at step 0";
    folder.fails("simulate set.txt 1 --map empty", REFUSED, lacks);
    folder.put("descending", &[2, 0, 0, 0, 1, 0, 0, 0]);
    let records = "descending: refused 9: statement or map records not as they must be";
    folder.fails("simulate set.txt 1 --map descending", REFUSED, records);
    folder.fails("replay set.txt empty --map descending", REFUSED, records);
}

#[test]
fn refused_traces() {
    let folder = Folder::with_example("traces");
    folder.text("simulate set.txt 1 1 1 -o trace");
    let trace = folder.get("trace");
    let length = "refused 17: schedule or trace above 64 steps, or trace not whole records";
    for bytes in [trace[..71].to_vec(), trace.repeat(22)] {
        folder.put("bad", &bytes);
        for line in ["replay set.txt bad", "show bad", "draw bad -o t"] {
            folder.fails(line, REFUSED, &format!("bad: {length}"));
        }
    }
    let mut changed = trace.clone();
    changed[24 + 8] = 1;
    folder.put("bad", &changed);
    let differs = "bad: refused 13: trace field differs, at step 1";
    folder.fails("replay set.txt bad", REFUSED, differs);
    // Thread, instruction number, mode, full, the mark of a written cell, and the bytes that are 0.
    for (at, value) in [
        (0, 4),
        (1, 21),
        (6, 2),
        (7, 2),
        (16, 2),
        (17, 1),
        (18, 1),
        (23, 1),
    ] {
        let mut changed = trace.clone();
        changed[48 + at] = value;
        folder.put("bad", &changed);
        folder.fails("show bad", BAD, "bad: step 2 is no trace step");
        folder.fails("draw bad -o t", BAD, "bad: step 2 is no trace step");
    }
}

#[test]
fn refused_models() {
    let folder = Folder::with_example("models");
    let model = folder.get("model");
    let mut two = model.clone();
    two[0] = 2;
    for bytes in [&model[..11], &two, &[&model[..], &[0]].concat()] {
        folder.put("bad", bytes);
        let error = "bad: refused 15: model not as it must be";
        folder.fails("check set.txt 3 bad", REFUSED, error);
        folder.fails("decode set.txt 3 bad -o t -m m", REFUSED, error);
    }
    // Step 0 without a choice; a cell that contradicts the map's; thread 0's ADDI, STORE and flush, which fail nothing.
    let wrong_cell = [&model[..], &[0, 0, 1, 0]].concat();
    let harmless = [1, 0, 0, 0, 1, 0, 0, 0, 0, 0, 1, 0];
    for (bytes, place) in [
        (&[0; 12][..], "49, of step 0"),
        (&wrong_cell, "16, of the map's cell 0"),
        (&harmless, "229, the goal"),
    ] {
        folder.put("bad", bytes);
        let error = format!("bad: refused 16: constraint or goal that is 0, in record {place}");
        folder.fails("check set.txt 3 bad", REFUSED, &error);
        folder.fails("decode set.txt 3 bad -o t -m m", REFUSED, &error);
    }
    assert_eq!(folder.names(), ["bad", "model", "set.txt"]);
}

#[test]
fn words_that_are_not_utf_8() {
    let folder = Folder::with_example("utf8");
    let word = || OsString::from_vec(vec![b'x', 0xff]);
    let words = |line: &[&str]| {
        let mut words: Vec<OsString> = line.iter().map(OsString::from).collect();
        words.push(word());
        words
    };
    let shown = "x\u{fffd}";
    let bad = |line: &[&str], error: &str| {
        folder.fails_words(&words(line), b"", BAD, &format!("{error}{shown}"));
    };
    bad(&["encode", "set.txt"], "K is not UTF-8: ");
    bad(&["simulate", "set.txt", "0"], "a choice is not UTF-8: ");
    bad(
        &["find", "set.txt", "3", "--solver"],
        "--solver is not UTF-8: ",
    );
    let error = format!("no command {shown}; deepchalk help shows them");
    folder.fails_words(&words(&[]), b"", BAD, &error);
    let error = format!("cannot read {shown}: No such file or directory");
    folder.fails_words(&words(&["read"]), b"", BAD, &error);
    folder.fails_words(
        &["simulate", "set.txt", "-"],
        b"\xff",
        BAD,
        "standard input is not UTF-8",
    );
    // As a file's name it is as good as any.
    fs::write(folder.path("").join(word()), EXAMPLE).expect("written");
    assert_eq!(folder.run_words(&words(&["read"]), b"").status, 0);
    // A name of two lines stays on one.
    let error = "cannot read a\\nb: No such file or directory";
    folder.fails_words(&["read", "a\nb"], b"", BAD, error);
}
