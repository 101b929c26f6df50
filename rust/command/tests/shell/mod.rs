//! The command as a shell runs it, in a folder of its own for each test.
#![allow(dead_code)]

use reference::{Cell, Statement};
use std::ffi::OsStr;
use std::fs;
use std::io::Write;
use std::os::unix::fs::PermissionsExt;
use std::path::{Path, PathBuf};
use std::process::{Child, Command, Output, Stdio};
use std::sync::{Mutex, MutexGuard, PoisonError};

/// Document 01's example: thread 1 fails where it does not see the store of thread 0.
pub const EXAMPLE: &str = "ADDI 1\nSTORE 0\n.\nLOAD 0\nJZ 3\nEXIT 0\nEXIT 7\n.\n0 0\n";
/// The model of its shortest failing run, for K 3.
pub const MODEL: [u8; 12] = [0, 1, 0, 0, 0, 1, 0, 0, 0, 1, 0, 0];
/// The lines of that run.
pub const SHORTEST: &str =
    "1 0 LOAD 0 0 0 0 0 0 {}\n1 1 JZ 3 0 0 0 0 0 {}\n1 3 EXIT 7 0 0 0 0 0 {}\nend 7\n";

/// A folder that the test has for itself.
pub struct Folder(PathBuf);

/// What the command gave.
#[derive(Debug)]
pub struct Ended {
    pub status: i32,
    pub out: Vec<u8>,
    pub error: String,
}

impl Folder {
    pub fn new(test: &str) -> Folder {
        let path = Path::new(env!("CARGO_TARGET_TMPDIR")).join(test);
        let _ = fs::remove_dir_all(&path);
        fs::create_dir_all(&path).expect("a folder");
        Folder(path)
    }

    /// With the example and its model in it.
    pub fn with_example(test: &str) -> Folder {
        let folder = Folder::new(test);
        folder.put("set.txt", EXAMPLE.as_bytes());
        folder.put("model", &MODEL);
        folder
    }

    pub fn path(&self, name: &str) -> PathBuf {
        self.0.join(name)
    }

    pub fn put(&self, name: &str, bytes: &[u8]) {
        fs::write(self.path(name), bytes).expect("written");
    }

    pub fn get(&self, name: &str) -> Vec<u8> {
        fs::read(self.path(name)).unwrap_or_else(|_| panic!("{name} is there"))
    }

    /// Sorted.
    pub fn names(&self) -> Vec<String> {
        let entries = fs::read_dir(&self.0).expect("a folder");
        let name = |entry: fs::DirEntry| entry.file_name().to_string_lossy().into_owned();
        let mut names: Vec<String> = entries.flatten().map(name).collect();
        names.sort();
        names
    }

    /// Words parted by blanks.
    pub fn run(&self, line: &str) -> Ended {
        self.run_words(&line.split_whitespace().collect::<Vec<&str>>(), b"")
    }

    pub fn run_words<W: AsRef<OsStr>>(&self, words: &[W], input: &[u8]) -> Ended {
        let mut command = self.command();
        command.args(words);
        ended(command, input)
    }

    pub fn command(&self) -> Command {
        let mut command = Command::new(env!("CARGO_BIN_EXE_deepchalk"));
        command.current_dir(&self.0);
        command
    }

    /// The text of a command that does what it should.
    pub fn text(&self, line: &str) -> String {
        let ended = self.run(line);
        assert_eq!((ended.status, ended.error.as_str()), (0, ""), "{line}");
        ended.text()
    }

    /// The command fails with this status and this line, and nothing is written.
    pub fn fails(&self, line: &str, status: i32, error: &str) {
        let words: Vec<&str> = line.split_whitespace().collect();
        self.fails_words(&words, b"", status, error);
    }

    pub fn fails_words<W: AsRef<OsStr> + std::fmt::Debug>(
        &self,
        words: &[W],
        input: &[u8],
        status: i32,
        error: &str,
    ) {
        let before = self.names();
        let ended = self.run_words(words, input);
        assert_eq!(ended.error, format!("deepchalk: {error}\n"), "{words:?}");
        assert_eq!(ended.status, status, "{words:?}");
        assert_eq!(ended.text(), "", "{words:?}");
        assert_eq!(self.names(), before, "{words:?}");
    }
}

impl Drop for Folder {
    fn drop(&mut self) {
        let _ = fs::remove_dir_all(&self.0);
    }
}

impl Ended {
    pub fn text(&self) -> String {
        String::from_utf8(self.out.clone()).expect("text")
    }
}

/// Held while a program is written, and while one is started: a child that another test starts
/// meanwhile has the file open, and it cannot be run until that child has closed it.
static PROGRAMS: Mutex<()> = Mutex::new(());

fn alone() -> MutexGuard<'static, ()> {
    PROGRAMS.lock().unwrap_or_else(PoisonError::into_inner)
}

/// Writes a program that can be run.
pub fn write_program(path: &Path, bytes: &[u8]) {
    let _alone = alone();
    fs::write(path, bytes).expect("written");
    fs::set_permissions(path, fs::Permissions::from_mode(0o755)).expect("set");
}

pub fn start(command: &mut Command) -> Child {
    let _alone = alone();
    command.spawn().expect("the command starts")
}

pub fn ended(mut command: Command, input: &[u8]) -> Ended {
    command
        .stdin(Stdio::piped())
        .stdout(Stdio::piped())
        .stderr(Stdio::piped());
    let mut child = start(&mut command);
    let mut pipe = child.stdin.take().expect("it is piped");
    // A command that does not read its input closes the pipe.
    let _ = pipe.write_all(input);
    drop(pipe);
    let output: Output = child.wait_with_output().expect("the command ends");
    Ended {
        status: output.status.code().expect("no signal"),
        out: output.stdout,
        error: String::from_utf8(output.stderr).expect("text"),
    }
}

/// The set as a text.
pub fn set_text(threads: &[Vec<Statement>], map: &[Cell]) -> String {
    let line = |statement: &Statement| format!("{statement}\n");
    let thread = |thread: &Vec<Statement>| thread.iter().map(line).collect::<String>() + ".\n";
    let cell = |cell: &Cell| format!("{} {}\n", cell.address, cell.value);
    let threads: String = threads.iter().map(thread).collect();
    threads + &map.iter().map(cell).collect::<String>()
}

/// Whether z3 can be run. Says so where it cannot, past the test runner, which keeps what passing
/// tests print.
pub fn z3_installed(test: &str) -> bool {
    testing::solver::installed(test)
}
