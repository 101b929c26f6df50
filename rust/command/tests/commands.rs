//! Each command on input that is as it should be.

mod shell;

use reference::litmus::{amd, intel};
use reference::records::{map_bytes, set_bytes};
use shell::{ended, set_text, Folder, EXAMPLE, MODEL, SHORTEST};
use std::process::Command;
use testing::{texts, Random};

#[test]
fn read_prints_a_set_text() {
    let folder = Folder::with_example("read");
    let printed = folder.text("read set.txt");
    assert_eq!(
        printed,
        "# thread 0\nADDI 1         # 0\nSTORE 0        # 1\nHALT           # 2\n.\n\
         # thread 1\nLOAD 0         # 0\nJZ 3           # 1\nEXIT 0         # 2\n\
         EXIT 7         # 3\n.\n# map\n0 0\n"
    );
    let again = folder.run_words(&["read", "-"], printed.as_bytes());
    assert_eq!((again.status, again.text()), (0, printed));
}

/// What `read` prints has the same records, for random texts.
#[test]
fn read_keeps_the_records() {
    let folder = Folder::new("read_records");
    for seed in 1..=40 {
        let (text, _) = texts::valid(&mut Random::new(seed));
        let printed = folder.run_words(&["read", "-"], &text);
        let (one, other) = (records(&text), records(&printed.out));
        assert_eq!(one, other, "seed {seed}");
    }
}

fn records(text: &[u8]) -> (Vec<u8>, Vec<u8>) {
    let read = reference::read(text, usize::MAX, usize::MAX).expect("an accepted text");
    (read.set, read.map)
}

/// Against the second listing, for accepted and refused texts.
#[test]
fn list_prints_document_01s_listing() {
    let folder = Folder::with_example("list");
    assert_eq!(
        folder.text("list set.txt"),
        "0 0 ADDI 1 0 0 0 0 0 {}\n0 1 STORE 0 1 0 0 0 0 {}\n1 0 LOAD 0 0 0 0 0 0 {}\n\
         1 1 JZ 3 0 0 0 0 0 {}\n1 3 EXIT 7 0 0 0 0 0 {}\nend 7\n"
    );
    for seed in 1..=300 {
        let mut random = Random::new(seed);
        let text = match seed % 4 {
            0 => texts::any(&mut random),
            _ => texts::valid(&mut random).0,
        };
        let listed = folder.run_words(&["list", "-"], &text);
        let expected = String::from_utf8(reference::listing(&text)).expect("text");
        assert_eq!(listed.text(), expected, "seed {seed}");
        let last = expected.lines().last().expect("a line");
        let refused = last.starts_with("refused");
        assert_eq!(listed.status, if refused { 3 } else { 0 }, "seed {seed}");
        assert_eq!(listed.error.lines().count(), usize::from(refused));
    }
}

#[test]
fn simulate_and_replay() {
    let folder = Folder::with_example("simulate");
    let lines = folder.text("simulate set.txt 1 1 1 -o trace");
    assert_eq!(lines, SHORTEST);
    assert_eq!(folder.get("trace").len(), 72);
    assert_eq!(
        folder.text("replay set.txt trace"),
        "replays: 3 steps, end 7\n"
    );
    assert_eq!(folder.text("show trace"), SHORTEST);
    // One word, standard input, and no choice at all.
    let quoted = folder.run_words(&["simulate", "set.txt", "1 1 1"], b"");
    assert_eq!(quoted.text(), SHORTEST);
    let input = folder.run_words(&["simulate", "set.txt", "-"], b"1\n1\t1\n");
    assert_eq!(input.text(), SHORTEST);
    let empty = folder.run_words(&["simulate", "set.txt", ""], b"");
    assert_eq!((empty.status, empty.text().as_str()), (0, "open\n"));
    // A flush: the store is seen.
    let seen = folder.text("simulate set.txt 0 0 f0 1");
    assert!(seen.ends_with("0 2 FLUSH - 1 0 0 1 1 {}\n1 0 LOAD 0 0 0 0 0 0 {(0,1)}\nopen\n"));
}

#[test]
fn another_map() {
    let folder = Folder::with_example("map");
    folder.put("one", &[0, 0, 1, 0]);
    let lines = folder.text("simulate set.txt 1 1 1 --map one -o trace");
    assert!(lines.ends_with("1 2 EXIT 0 1 0 0 0 0 {}\nend 0\n"));
    let replayed = folder.text("replay set.txt trace --map one");
    assert_eq!(replayed, "replays: 3 steps, end 0\n");
    let refused = folder.run("replay set.txt trace");
    assert_eq!(refused.status, 3);
    let words = ["replay", "set.txt", "trace", "--map", "-"];
    let from_input = folder.run_words(&words, &[0, 0, 1, 0]);
    assert_eq!(from_input.text(), "replays: 3 steps, end 0\n");
}

#[test]
fn standard_input_and_output() {
    let folder = Folder::with_example("dash");
    let trace = folder.run_words(&["simulate", "-", "1 1 1", "-o", "-"], EXAMPLE.as_bytes());
    assert_eq!((trace.status, trace.out.len()), (0, 72));
    let replayed = folder.run_words(&["replay", "set.txt", "-"], &trace.out);
    assert_eq!(replayed.text(), "replays: 3 steps, end 7\n");
    let shown = folder.run_words(&["show", "-"], &trace.out);
    assert_eq!(shown.text(), SHORTEST);
    let checked = folder.run_words(&["check", "set.txt", "3", "-"], &MODEL);
    assert_eq!(checked.status, 0);
    let table = folder.run_words(&["encode", "-", "3", "-o", "-"], EXAMPLE.as_bytes());
    folder.text("encode set.txt 3 -o table");
    assert_eq!(table.out, folder.get("table"));
    let map = folder.run_words(&["decode", "set.txt", "3", "-", "-m", "-"], &MODEL);
    assert_eq!(map.out, [0, 0, 0, 0]);
    let picture = folder.run_words(&["draw", "-", "-o", "-"], &trace.out);
    assert_eq!((picture.status, picture.error.as_str()), (0, ""));
    // A name that looks like an option.
    folder.put("-x", EXAMPLE.as_bytes());
    assert_eq!(folder.run("list -- -x").status, 0);
}

/// The table is the second encoder's.
#[test]
fn encode_writes_the_table() {
    let folder = Folder::with_example("encode");
    let read = reference::read(EXAMPLE.as_bytes(), usize::MAX, usize::MAX).expect("accepted");
    for bound in [1, 3, 64] {
        let records = reference::table_size(&read.set, &read.map, bound).expect("accepted");
        let mut table = vec![0; records as usize * 16];
        reference::encode(&read.set, &read.map, bound, &mut table).expect("accepted");
        let bytes = table.len();
        assert_eq!(
            folder.text(&format!("encode set.txt {bound}")),
            format!("{records} records, {bytes} bytes; -o TABLE writes them\n")
        );
        assert_eq!(
            folder.text(&format!("encode set.txt {bound} -o table")),
            format!("{records} records, {bytes} bytes, written to table\n")
        );
        assert_eq!(folder.get("table"), table);
    }
}

#[test]
fn check_and_decode() {
    let folder = Folder::with_example("decode");
    let satisfies = "the model satisfies the table: its run fails\n";
    assert_eq!(folder.text("check set.txt 3 model"), satisfies);
    let decoded = folder.text("decode set.txt 3 model -o trace -m map");
    assert_eq!(decoded, format!("{SHORTEST}\nmap\n0 0\n"));
    assert_eq!(folder.get("map"), [0, 0, 0, 0]);
    let replayed = folder.text("replay set.txt trace --map map");
    assert_eq!(replayed, "replays: 3 steps, end 7\n");
    assert_eq!(folder.names(), ["map", "model", "set.txt", "trace"]);
}

/// A file that is there keeps its links and its permissions; a device stays a device.
#[cfg(unix)]
#[test]
fn outputs_over_what_is_there() {
    use std::fs;
    use std::os::unix::fs::{symlink, FileTypeExt, PermissionsExt};
    let folder = Folder::with_example("over");
    folder.put("old", b"old");
    fs::set_permissions(folder.path("old"), fs::Permissions::from_mode(0o640)).expect("set");
    symlink("old", folder.path("link")).expect("a link");
    folder.text("simulate set.txt 1 1 1 -o link");
    assert_eq!(folder.get("old").len(), 72);
    let found = fs::symlink_metadata(folder.path("link")).expect("it is there");
    assert!(found.is_symlink());
    let found = fs::metadata(folder.path("old")).expect("it is there");
    assert_eq!(found.permissions().mode() & 0o777, 0o640);
    folder.text("simulate set.txt 1 1 1 -o /dev/null");
    let null = fs::metadata("/dev/null").expect("it is there");
    assert!(null.file_type().is_char_device());
}

#[test]
fn help_and_version() {
    let folder = Folder::new("help");
    for line in ["help", "--help", "-h", "find --help", "help find"] {
        let text = folder.text(line);
        assert!(text.starts_with("deepchalk: looks for failing runs"));
        assert!(text.lines().count() <= 35 && text.lines().all(|line| line.len() <= 104));
    }
    assert_eq!(folder.text("--version"), "deepchalk 0.1.0\n");
}

/// The sets of document 002 as texts: what is listed is the second listing.
#[test]
fn litmus_texts() {
    let folder = Folder::new("litmus_texts");
    for litmus in intel().iter().chain(&amd()) {
        let sample = litmus.judged();
        let text = set_text(&sample.threads, &sample.map);
        let records = records(text.as_bytes());
        assert_eq!(records.0, set_bytes(&sample.threads), "{}", litmus.name);
        assert_eq!(records.1, map_bytes(&sample.map), "{}", litmus.name);
        let listed = folder.run_words(&["list", "-"], text.as_bytes());
        assert_eq!(listed.out, reference::listing(text.as_bytes()));
    }
}

/// Standard output that is closed while the command prints.
#[test]
fn broken_pipe() {
    let folder = Folder::with_example("pipe");
    let binary = env!("CARGO_BIN_EXE_deepchalk");
    let mut command = Command::new("bash");
    // A pipe whose reader has gone before the command starts.
    let script = format!("set -o pipefail; {{ sleep 0.2; {binary} list set.txt; }} | true");
    command.args(["-c", &script]).current_dir(folder.path(""));
    let ended = ended(command, b"");
    assert_eq!(ended.status, 2);
    assert_eq!(
        ended.error,
        "deepchalk: cannot write standard output: Broken pipe\n"
    );
}

#[test]
fn one_step_is_one() {
    let folder = Folder::new("one_step");
    folder.put("set.txt", b"EXIT 1\n.\n");
    let found = folder.run("find set.txt 1 --search -o trace");
    let head = "a run of 1 step fails\nfound by the search, which saw 1 state; ";
    assert!(found.text().starts_with(head), "{}", found.text());
    assert_eq!(
        folder.text("replay set.txt trace"),
        "replays: 1 step, end 1\n"
    );
    assert_eq!(
        folder.text("draw trace -o d.svg"),
        "1 step, drawn in d.svg\n"
    );
}
