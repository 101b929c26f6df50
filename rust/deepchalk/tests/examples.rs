//! Every example is read by the library, and the answer in its first line is that of an exhaustive
//! search: the length of a shortest failing run, which the library runs, or that none fails.

use deepchalk::{End, Refusal, Set, MAX_SET_MAP, MAX_STEPS};
use reference::example_files::answer;
use reference::search::shortest_failing;
use reference::{accept_map, accept_set, Cell};
use std::fs;
use std::path::{Path, PathBuf};

fn folder() -> PathBuf {
    Path::new(env!("CARGO_MANIFEST_DIR")).join("../../examples")
}

fn examples() -> Vec<PathBuf> {
    let folder = folder();
    let folders = [
        folder.clone(),
        folder.join("litmus"),
        folder.join("counters"),
    ];
    let files = folders.iter().flat_map(|folder| {
        let entries = fs::read_dir(folder).expect("a folder");
        entries.map(|entry| entry.expect("an entry").path())
    });
    files
        .filter(|path| path.extension().is_some_and(|extension| extension == "txt"))
        .collect()
}

/// As the library reads it, and as the search takes it.
fn read(path: &Path) -> (Set, reference::Set, Vec<Cell>) {
    let set = Set::read(&fs::read(path).expect("a text")).expect("an accepted text");
    let accepted = accept_set(set.statements()).expect("an accepted set");
    let map = accept_map(set.map(), MAX_SET_MAP).expect("an accepted map");
    (set, accepted, map)
}

#[test]
fn answers_in_first_lines() {
    let examples = examples();
    assert_eq!(examples.len(), 5 + 19 + 6);
    for path in examples {
        let (_, set, map) = read(&path);
        let text = fs::read_to_string(&path).expect("a text");
        let first = text.lines().next().expect("a first line");
        let answer = format!(": {}", answer(&set, &map));
        let path = path.display();
        assert!(
            first.starts_with("# ") && first.ends_with(&answer),
            "{path}{answer}"
        );
    }
}

#[test]
fn the_scratch_buffer_fails_in_the_library() {
    let (set, accepted, map) = read(&folder().join("scratch-faulty.txt"));
    let run = shortest_failing(&accepted, &map, MAX_STEPS).expect("a failing run");
    let schedule: Vec<u8> = run.iter().map(|choice| choice.schedule_byte()).collect();
    let (trace, ran) = set.simulate(&schedule).expect("a permitted schedule");
    assert!(matches!(ran.end, End::Code(1 | 2)));
    assert_eq!(set.replay(&trace), Ok(ran));
}

// By the rule before change request 2026-05 port's second CHECK, in the clearing step, went uncounted:
// port ran ahead, to its EXIT in nine steps.
#[test]
fn port_does_not_run_ahead_of_the_ping() {
    let (set, _, _) = read(&folder().join("pings.txt"));
    let ahead = [0, 1, 0, 0, 0, 0, 0, 0, 0];
    assert!(set.simulate(&ahead[..3]).is_ok());
    for steps in 4..=ahead.len() {
        assert_eq!(
            set.simulate(&ahead[..steps]),
            Err(Refusal::NotPermitted { step: 3 })
        );
    }
}
