//! `find`: the whole job by search and by Z3, their agreement, and solvers that are missing or wrong.

mod shell;

use reference::litmus::{amd, intel, Litmus};
use reference::records::{map_bytes, set_bytes};
use reference::{accept_set, Cell};
use shell::{set_text, Ended, Folder, EXAMPLE, SHORTEST};
use std::fs;
use std::process::Stdio;
use std::thread::sleep;
use std::time::Duration;
use testing::{maps, sets, Random};

/// Two threads that each store 1 and load the other's cell: both can read 0.
fn store_buffers() -> (String, usize) {
    let litmus = intel().swap_remove(2);
    let sample = litmus.judged();
    (
        set_text(&sample.threads, &sample.map),
        litmus.judged_bound(),
    )
}

/// The run that was kept replays to code 1, over the kept map alone and by the second simulator too.
fn kept_run_replays(folder: &Folder) {
    let replayed = folder.text("replay set.txt trace --map map");
    assert!(replayed.ends_with(" steps, end 1\n"), "{replayed}");
    let read = reference::read(&folder.get("set.txt"), usize::MAX, usize::MAX).expect("accepted");
    let ran = reference::replay(&read.set, &folder.get("map"), &folder.get("trace"));
    assert_eq!(ran.expect("a run").end, reference::End::Code(1));
}

fn finds_the_store_buffers(name: &str, solver: &str, by: &str) {
    let folder = Folder::new(name);
    let (text, bound) = store_buffers();
    folder.put("set.txt", text.as_bytes());
    let line = format!("find set.txt {bound} --solver {solver} -o trace -m map --svg picture");
    let found = folder.run(&line);
    assert_eq!((found.status, found.error.as_str()), (1, ""));
    let shown = folder.text("show trace");
    let head = found.text();
    assert!(head.starts_with("a run of "), "{head}");
    assert!(head.contains(&format!("\nfound by {by}")), "{head}");
    assert!(
        head.contains(&format!("\n\n{shown}\nmap\n0 0\n1 0\n")),
        "{head}"
    );
    kept_run_replays(&folder);
    let names = ["map", "picture", "set.txt", "trace"];
    assert_eq!(folder.names(), names);
    folder.text("draw trace -o drawn");
    assert_eq!(folder.get("drawn"), folder.get("picture"));
}

#[test]
fn the_search_finds_the_store_buffers() {
    finds_the_store_buffers("buffers_search", "search", "the search, which saw ");
}

#[test]
fn z3_finds_the_store_buffers() {
    if shell::z3_installed("find: store buffers") {
        finds_the_store_buffers("buffers_z3", "z3", "Z3 version ");
    }
}

/// Sample 3 with map 0→1, which fails for no K.
const CANNOT_FAIL: &str = "ADDI 1\nSTORE 0\n.\nLOAD 0\nJZ 3\nEXIT 0\nEXIT 7\n.\n0 1\n";

#[test]
fn no_run_fails_by_search() {
    let folder = Folder::new("none_search");
    folder.put("set.txt", CANNOT_FAIL.as_bytes());
    let found = folder.text("find set.txt 12 --search -o trace");
    let (first, second) = found.split_once('\n').expect("two lines");
    assert_eq!(first, "no run of at most 12 steps fails");
    assert!(second.starts_with("that is the word of the search, which saw "));
    assert!(second.ends_with(" states and is complete; there is nothing to replay\n"));
    assert_eq!(folder.names(), ["set.txt"]);
}

#[test]
fn no_run_fails_by_z3() {
    if !shell::z3_installed("find: no run fails") {
        return;
    }
    let folder = Folder::new("none_z3");
    folder.put("set.txt", CANNOT_FAIL.as_bytes());
    let found = folder.text("find set.txt 12 -o trace");
    let (first, second) = found.split_once('\n').expect("two lines");
    assert_eq!(first, "no run of at most 12 steps fails");
    assert!(second.starts_with("that is the word of Z3 version "));
    assert!(second.ends_with("; there is nothing to replay\n"));
    assert_eq!(folder.names(), ["set.txt"]);
}

/// Fails only where cell 5, which the map lacks, leads to a cell with 300.
const FREE: &str = "LOAD [5]\nSUBI 300\nJZ 4\nEXIT 0\nEXIT 1\n.\n1 2\n";

#[test]
fn free_memory() {
    let folder = Folder::new("free");
    folder.put("set.txt", FREE.as_bytes());
    let found = folder.run("find set.txt 9 --search");
    assert_eq!((found.status, found.error.as_str()), (4, ""));
    assert_eq!(
        found.text(),
        "no failing run of at most 9 steps found, but there may be one\n\
         that is the word of the search, which saw 4 states; it is not complete: \
         it took cells that the map lacks as 0: 0 5\n"
    );
    if shell::z3_installed("find: free memory") {
        let found = folder.run("find set.txt 9 --solver z3 -o trace -m map");
        assert_eq!(found.status, 1, "{}", found.error);
        kept_run_replays(&folder);
    }
}

/// Both answers on each test, with each run kept and replayed.
fn agree(name: &str, litmus: &[Litmus]) {
    let z3 = shell::z3_installed(&format!("find: {name}"));
    let folder = Folder::new(name);
    for litmus in litmus {
        let (sample, bound) = (litmus.judged(), litmus.judged_bound());
        let text = set_text(&sample.threads, &sample.map);
        let read = reference::read(text.as_bytes(), usize::MAX, usize::MAX).expect("accepted");
        assert_eq!(read.set, set_bytes(&sample.threads));
        assert_eq!(read.map, map_bytes(&sample.map));
        folder.put("set.txt", text.as_bytes());
        let solvers = if z3 {
            &["search", "z3"][..]
        } else {
            &["search"]
        };
        for solver in solvers {
            let line = format!("find set.txt {bound} --solver {solver} -o trace -m map");
            let found = folder.run(&line);
            let expected = i32::from(litmus.allowed);
            assert_eq!(found.status, expected, "{} by {solver}", litmus.name);
            if litmus.allowed {
                kept_run_replays(&folder);
            }
        }
    }
}

// In two tests, which run side by side: four threads take long.
#[test]
fn agreement_on_litmus_tests_1_to_6_of_intel() {
    agree("intel_1_to_6", &intel()[..6]);
}

/// Of AMD those that are not Intel's.
#[test]
fn agreement_on_the_other_litmus_tests() {
    let mut others = intel().split_off(6);
    let sets: Vec<Vec<u8>> = intel().iter().map(records).collect();
    others.extend(amd().into_iter().filter(|l| !sets.contains(&records(l))));
    assert_eq!(others.len(), 4 + 4);
    agree("other_litmus", &others);
}

fn records(litmus: &Litmus) -> Vec<u8> {
    set_bytes(&litmus.judged().threads)
}

/// Where the search is complete Z3 says the same; where it finds a run Z3 finds one.
#[test]
fn agreement_on_random_sets() {
    if !shell::z3_installed("find: random sets") {
        return;
    }
    let folder = Folder::new("random_sets");
    let mut reached = [0; 5];
    for seed in 1..=60 {
        let mut random = Random::new(seed);
        let threads = sets::exiting(&mut random);
        let mut map = maps::cells(&mut random);
        map.truncate(random.pick(&[2, 20, 128]));
        folder.put("set.txt", set_text(&threads, &map).as_bytes());
        let bound = random.pick(&[3, 6, 9]);
        let searched = folder.run(&format!("find set.txt {bound} --search"));
        let solved = folder.run(&format!("find set.txt {bound} --solver z3"));
        let agree = match (searched.status, solved.status) {
            (4, solved) => solved == 0 || solved == 1,
            (searched, solved) => searched == solved && searched < 2,
        };
        assert!(agree, "seed {seed}: {searched:?} {solved:?}");
        reached[searched.status as usize] += 1;
    }
    println!("answers of the search by status: {reached:?}");
    assert!(
        [0, 1, 4].iter().all(|&status| reached[status] > 0),
        "{reached:?}"
    );
}

/// The search's run is a shortest one.
#[test]
fn shortest_runs() {
    let folder = Folder::with_example("shortest");
    let found = folder.run("find set.txt 64 --search");
    assert!(found
        .text()
        .ends_with(&format!("\n\n{SHORTEST}\nmap\n0 0\n")));
    let set = reference::read(EXAMPLE.as_bytes(), usize::MAX, usize::MAX).expect("accepted");
    let set = accept_set(&set.set).expect("accepted");
    let (address, value) = (0, 0);
    let run = reference::search::shortest_failing(&set, &[Cell { address, value }], 64);
    assert_eq!(run.map(|run| run.len()), Some(3));
    assert_eq!(folder.run("find set.txt 2 --search").status, 0);
}

// ---- solvers that are missing or wrong

/// Runs with a program `z3` that is this script.
fn with_solver(folder: &Folder, script: &str, line: &str) -> Ended {
    shell::ended(solver_command(folder, script, line), b"")
}

fn solver_command(folder: &Folder, script: &str, line: &str) -> std::process::Command {
    let program = folder.path("z3");
    let version = "[ \"$1\" = --version ] && { echo 'Z3 version 0.0 - 64 bit'; exit; }";
    let script = format!("#!/bin/bash\n{version}\n{script}\n");
    shell::write_program(&program, script.as_bytes());
    let mut command = folder.command();
    command.args(line.split_whitespace());
    command.env(
        "PATH",
        format!("{}:/usr/bin:/bin", folder.path("").display()),
    );
    command
}

#[test]
fn without_a_solver() {
    let folder = Folder::with_example("without");
    let run = |line: &str| {
        let mut command = folder.command();
        command
            .args(line.split_whitespace())
            .env("PATH", "/nowhere");
        shell::ended(command, b"")
    };
    let missing = run("find set.txt 9 --solver z3 -o trace");
    assert_eq!((missing.status, missing.text().as_str()), (5, ""));
    assert_eq!(
        missing.error,
        "deepchalk: z3 is not installed; --solver search needs none\n"
    );
    let found = run("find set.txt 9");
    assert_eq!(found.status, 1);
    assert!(found.text().contains("\nfound by the search, which saw "));
}

#[test]
fn wrong_solvers() {
    let folder = Folder::with_example("wrong");
    let bits = "(r false) ".repeat(4 * 3);
    for (script, status, error) in [
        (
            "exit 1",
            5,
            "z3 prints nothing and ends with exit status: 1",
        ),
        ("echo '(error \"x\")'", 5, "z3 answers (error \\\"x\\\")"),
        ("echo sat", 5, "z3 answers sat, but not all values"),
        (
            &format!("echo sat; echo '{bits}'"),
            5,
            "Z3 version 0.0 gave a run, but the model check says: refused 16: \
             constraint or goal that is 0, in record 49, of step 0",
        ),
    ] {
        let ended = with_solver(&folder, script, "find set.txt 3 -o trace");
        assert_eq!(ended.error, format!("deepchalk: {error}\n"));
        assert_eq!((ended.status, ended.text().as_str()), (status, ""));
    }
    let ended = with_solver(&folder, "echo unknown", "find set.txt 3 -o trace");
    assert_eq!((ended.status, ended.error.as_str()), (4, ""));
    assert_eq!(
        ended.text(),
        "no failing run of at most 3 steps found, but there may be one\n\
         that is the word of Z3 version 0.0; it is not complete: z3 answers unknown\n"
    );
    assert_eq!(folder.names(), ["model", "set.txt", "z3"]);
}

/// An output that cannot be written is told before the solver is asked.
#[test]
fn outputs_are_tried_first() {
    let folder = Folder::with_example("tried");
    for option in ["-o", "-m", "--svg"] {
        let line = format!("find set.txt 3 {option} missing/x");
        let ended = with_solver(&folder, "touch asked; echo unsat", &line);
        assert_eq!(ended.status, 2);
        assert_eq!(
            ended.error,
            "deepchalk: cannot write missing/x: No such file or directory\n"
        );
    }
    // One that can be is left as it is where no run fails.
    folder.put("old", b"old");
    let ended = with_solver(&folder, "echo unsat", "find set.txt 3 -o old -m new");
    assert_eq!((ended.status, folder.get("old")), (0, b"old".to_vec()));
    assert_eq!(folder.names(), ["model", "old", "set.txt", "z3"]);
}

#[test]
fn progress_after_some_seconds() {
    let folder = Folder::with_example("progress");
    let ended = with_solver(&folder, "sleep 6; echo unsat", "find set.txt 3");
    assert_eq!(ended.status, 0);
    let size = folder.text("encode set.txt 3");
    let records = size.split(' ').next().expect("a word");
    assert_eq!(
        ended.error,
        format!(
            "deepchalk: 5 s: z3 works on a table of {records} records (--search may be quicker)\n"
        )
    );
}

/// However the command is killed, its solver dies with it and no file is left.
#[cfg(target_os = "linux")]
#[test]
fn the_solver_dies_with_the_command() {
    let folder = Folder::with_example("killed");
    for signal in ["-INT", "-TERM", "-KILL"] {
        let script = "echo $$ > pid.new; mv pid.new pid; exec sleep 60";
        let mut command = solver_command(&folder, script, "find set.txt 3 -o trace");
        command.stdin(Stdio::null()).stdout(Stdio::null());
        let mut child = shell::start(&mut command);
        let waited = (0..100).find(|_| {
            sleep(Duration::from_millis(50));
            folder.path("pid").exists()
        });
        assert!(waited.is_some(), "the solver starts");
        let solver = String::from_utf8(folder.get("pid")).expect("digits");
        let mut kill = std::process::Command::new("kill");
        kill.args([signal, &child.id().to_string()]);
        assert_eq!(shell::ended(kill, b"").status, 0);
        child.wait().expect("it ends");
        let gone = (0..100).any(|_| {
            sleep(Duration::from_millis(50));
            has_ended(solver.trim())
        });
        assert!(gone, "the solver is alive after {signal}");
        fs::remove_file(folder.path("pid")).expect("removed");
        assert_eq!(folder.names(), ["model", "set.txt", "z3"]);
    }
}

/// No such process, or one whose parent has not asked for its status yet.
fn has_ended(pid: &str) -> bool {
    match fs::read_to_string(format!("/proc/{pid}/stat")) {
        Ok(stat) => stat.contains(") Z "),
        Err(_) => true,
    }
}
