//! docs/USE.md and README.md: each command in their blocks marked `console` runs, and prints what stands
//! there; the README's picture is the one that its command draws. With DEEPCHALK_WRITE_PAGE=1 pages and
//! picture are written anew.

mod shell;

use shell::{ended, Folder};
use std::fs;
use std::os::unix::fs::symlink;
use std::path::{Path, PathBuf};
use std::process::Command;

/// The page with what the commands print now.
fn printed(page: &str, folder: &Folder) -> String {
    let mut lines = String::new();
    let mut in_block = false;
    for line in page.lines() {
        match line {
            "```console" => in_block = true,
            "```" => in_block = false,
            _ => {}
        }
        let is_output = in_block && !line.starts_with("$ ") && line != "```console";
        if !is_output {
            lines += &format!("{line}\n");
        }
        if let Some(command) = line.strip_prefix("$ ").filter(|_| in_block) {
            lines += &output(command, folder);
        }
    }
    lines
}

/// Both outputs, as a terminal shows them.
fn output(line: &str, folder: &Folder) -> String {
    let mut command = Command::new("bash");
    command.args(["-c", &format!("{line} 2>&1")]);
    command.current_dir(folder.path(""));
    let tools = folder.path("tools");
    command.env("PATH", format!("{}:/usr/bin:/bin", tools.display()));
    ended(command, b"").text()
}

/// A folder that the pages' commands run in: like the repository's top, as far as they look.
fn top_folder(name: &str) -> Folder {
    let folder = Folder::new(name);
    for tools in ["tools", "bin"] {
        fs::create_dir(folder.path(tools)).expect("a folder");
        let command = folder.path(tools).join("deepchalk");
        symlink(env!("CARGO_BIN_EXE_deepchalk"), command).expect("a link");
    }
    for part in ["examples", "crates"] {
        symlink(repository().join(part), folder.path(part)).expect("a link");
    }
    folder
}

fn repository() -> PathBuf {
    Path::new(env!("CARGO_MANIFEST_DIR")).join("../..")
}

/// Compares a file of the repository with what it should hold, or writes it.
fn hold(file: &str, now: &str) {
    let file = repository().join(file);
    if std::env::var_os("DEEPCHALK_WRITE_PAGE").is_some() {
        fs::write(&file, now).expect("written");
    }
    assert_eq!(now, fs::read_to_string(&file).expect("the file"));
}

#[test]
fn the_pages_show_what_is_printed() {
    for (file, blocks) in [("docs/USE.md", 6), ("README.md", 2)] {
        let folder = top_folder("use_page");
        let page = fs::read_to_string(repository().join(file)).expect("the page");
        assert!(page.matches("```console").count() >= blocks);
        hold(file, &printed(&page, &folder));
        if file == "README.md" {
            let picture = fs::read_to_string(folder.path("run.svg")).expect("the picture");
            hold("docs/scratch-faulty.svg", &picture);
        }
    }
}
