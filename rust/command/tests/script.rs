//! `bin/deepchalk` in a tree of its own, with programs `rt` and `cargo` that only write what the real
//! ones build: when it builds, what it shows, and what it hands on.

mod shell;

use shell::{ended, write_program, Ended, Folder};
use std::fs;
use std::os::unix::fs::symlink;
use std::path::Path;
use std::process::Command;

const RT: &str = "echo noise; echo 'crate base: modules loaded=0 checked=4'; echo more noise >&2; \
     mkdir -p out; echo \"rt $*\" >> ../../calls; touch out/libdeepchalk.a";
const CARGO: &str = "echo cargo >> calls; mkdir -p rust/target/release; \
     printf '#!/bin/bash\\necho \"$PWD: $*\"; exit 4\\n' > rust/target/release/deepchalk; \
     chmod +x rust/target/release/deepchalk";

const PROVING: &str = "deepchalk: proving the library, which takes some minutes once\n";
const BUILDING: &str = "deepchalk: building the command\n";

/// A tree with the sources that the script asks about.
fn tree(name: &str) -> Folder {
    let folder = Folder::new(name);
    for part in [
        "bin",
        "tools",
        "elsewhere",
        "crates/base/src",
        "crates/deepchalk/src",
        "rust/command/src",
        "rust/deepchalk/src",
        "rust/reference/src",
    ] {
        fs::create_dir_all(folder.path(part)).expect("a folder");
    }
    for file in [
        "crates.txt",
        "crates/base/src/lib.rt",
        "rust/Cargo.toml",
        "rust/Cargo.lock",
        "rust/command/Cargo.toml",
        "rust/command/src/main.rs",
        "rust/deepchalk/Cargo.toml",
        "rust/deepchalk/build.rs",
        "rust/deepchalk/src/lib.rs",
        "rust/reference/Cargo.toml",
        "rust/reference/src/lib.rs",
    ] {
        folder.put(file, b"");
    }
    for name in ["deepchalk", "library"] {
        let script = Path::new(env!("CARGO_MANIFEST_DIR"))
            .join("../../bin")
            .join(name);
        let script = fs::read(script).expect("it is there");
        write_program(&folder.path("bin").join(name), &script);
    }
    tool(&folder, "rt", RT);
    tool(&folder, "cargo", CARGO);
    folder
}

fn tool(folder: &Folder, name: &str, script: &str) {
    let path = folder.path("tools").join(name);
    write_program(&path, format!("#!/bin/bash\n{script}\n").as_bytes());
}

/// Through a symbolic link, from another folder.
fn run(folder: &Folder) -> Ended {
    let link = folder.path("elsewhere/link");
    let _ = fs::remove_file(&link);
    symlink("../bin/deepchalk", &link).expect("a link");
    let mut command = Command::new("./link");
    command.args(["find", "a b"]);
    command.current_dir(folder.path("elsewhere"));
    let tools = folder.path("tools");
    command.env("PATH", format!("{}:/usr/bin:/bin", tools.display()));
    ended(command, b"")
}

fn calls(folder: &Folder) -> String {
    String::from_utf8(folder.get("calls")).expect("text")
}

/// Makes a file newer than what is built.
fn change(folder: &Folder, file: &str) {
    let mut command = Command::new("touch");
    command.args(["-d", "+1 minute"]).arg(folder.path(file));
    assert_eq!(ended(command, b"").status, 0);
}

#[test]
fn builds_once_and_runs() {
    let folder = tree("script");
    let first = run(&folder);
    let proved = "crate base: modules loaded=0 checked=4\n";
    assert_eq!(first.error, format!("{PROVING}{proved}{BUILDING}"));
    let place = folder
        .path("elsewhere")
        .canonicalize()
        .expect("it is there");
    assert_eq!(first.text(), format!("{}: find a b\n", place.display()));
    assert_eq!(first.status, 4);
    let second = run(&folder);
    assert_eq!((second.status, second.error.as_str()), (4, ""));
    assert_eq!(calls(&folder), "rt lib\ncargo\n");
}

#[test]
fn builds_again_what_changed() {
    let folder = tree("script_again");
    assert_eq!(run(&folder).status, 4);
    change(&folder, "rust/reference/src/lib.rs");
    assert_eq!(run(&folder).error, BUILDING);
    for file in ["crates/base/src/lib.rt", "crates.txt"] {
        change(&folder, file);
        assert!(run(&folder).error.starts_with(PROVING), "{file}");
    }
}

#[test]
fn failures_show_the_end_of_the_log() {
    let folder = tree("script_fails");
    let refused = "rt: the library base did not build, so nothing above it was checked";
    let fails = format!("echo '{refused}'; seq 100; exit 3");
    tool(&folder, "rt", &fails);
    let failed = run(&folder);
    assert_eq!((failed.status, failed.text().as_str()), (6, ""));
    let last = "99\n100\ndeepchalk: cannot be built: bin/library ended with status 3\n";
    assert!(failed.error.ends_with(last), "{}", failed.error);
    assert!(failed.error.contains(&format!("{refused}\n81\n")));
    tool(&folder, "rt", RT);
    tool(&folder, "cargo", "echo 'error: no'; exit 101");
    let failed = run(&folder);
    assert_eq!(failed.status, 6);
    let last = "deepchalk: cannot be built: cargo ended with status 101\n";
    assert!(failed.error.ends_with(last), "{}", failed.error);
}
