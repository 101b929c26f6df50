//! Files of the user, and `-` for standard input and output. What is written appears whole or not at
//! all: the bytes go to a temporary file in the same folder, which then takes the name.

use crate::arguments::shown;
use crate::failure::Failure;
use std::ffi::{OsStr, OsString};
use std::fs::{self, File, OpenOptions};
use std::io::{self, Read, Write};
use std::path::{Path, PathBuf};
use std::process;

// ---- reading

/// The file's bytes, at most one more than `limit`: enough to see that there are too many.
pub fn read(file: &OsStr, limit: usize) -> Result<Vec<u8>, Failure> {
    let mut bytes = Vec::new();
    let all = limit as u64 + 1;
    let read = if file == "-" {
        io::stdin().take(all).read_to_end(&mut bytes)
    } else {
        File::open(file).and_then(|open| open.take(all).read_to_end(&mut bytes))
    };
    match read {
        Ok(_) => Ok(bytes),
        Err(error) => Err(Failure::of_file(
            &format!("cannot read {}", name(file)),
            &error,
        )),
    }
}

/// As a line names the file.
pub fn name(file: &OsStr) -> String {
    if file == "-" {
        "standard input".to_string()
    } else {
        shown(file)
    }
}

// ---- writing

/// Bytes for a file.
#[derive(Debug)]
pub struct Output {
    pub file: OsString,
    pub bytes: Vec<u8>,
}

impl Output {
    pub fn is_standard(&self) -> bool {
        self.file == "-"
    }
}

/// Whether the file can be written, before long work is put into its bytes.
pub fn try_output(file: &OsStr) -> Result<(), Failure> {
    let found = fs::metadata(file);
    // Opening a pipe would already tell its reader something.
    let special = found.is_ok_and(|found| !found.is_file() && !found.is_dir());
    let output = Output {
        file: file.to_os_string(),
        bytes: Vec::new(),
    };
    if special || output.is_standard() {
        return Ok(());
    }
    let tried = prepare(&output).map(drop);
    tried.map_err(|error| cannot_write(file, &error))
}

/// Writes all or none: no file takes its name before the bytes of each are written.
pub fn write(outputs: &[Output]) -> Result<(), Failure> {
    let mut written = Vec::new();
    for output in outputs.iter().filter(|output| !output.is_standard()) {
        let prepared = prepare(output).map_err(|error| cannot_write(&output.file, &error))?;
        written.push((output, prepared));
    }
    for (output, prepared) in written {
        let finished = prepared.finish(&output.bytes);
        finished.map_err(|error| cannot_write(&output.file, &error))?;
    }
    outputs
        .iter()
        .filter(|output| output.is_standard())
        .try_for_each(|output| print(&output.bytes))
}

fn cannot_write(file: &OsStr, error: &io::Error) -> Failure {
    Failure::of_file(&format!("cannot write {}", shown(file)), error)
}

/// Writes to standard output.
pub fn print(bytes: &[u8]) -> Result<(), Failure> {
    let mut output = io::stdout().lock();
    let written = output.write_all(bytes).and_then(|()| output.flush());
    written.map_err(|error| Failure::of_file("cannot write standard output", &error))
}

enum Prepared {
    /// A device or a pipe, which keeps its place.
    Special(File),
    Temporary(Temporary),
}

impl Prepared {
    fn finish(self, bytes: &[u8]) -> io::Result<()> {
        match self {
            Prepared::Special(mut file) => file.write_all(bytes),
            Prepared::Temporary(temporary) => fs::rename(&temporary.path, &temporary.target),
        }
    }
}

/// Removed when dropped; after the rename there is nothing to remove.
struct Temporary {
    path: PathBuf,
    target: PathBuf,
}

impl Drop for Temporary {
    fn drop(&mut self) {
        let _ = fs::remove_file(&self.path);
    }
}

fn prepare(output: &Output) -> io::Result<Prepared> {
    let target = Path::new(&output.file);
    let Ok(found) = fs::metadata(target) else {
        return temporary(target.to_path_buf(), &output.bytes).map(Prepared::Temporary);
    };
    // Opening says whether the file may be written at all; a folder may not.
    let open = OpenOptions::new().write(true).open(target)?;
    if !found.is_file() {
        return Ok(Prepared::Special(open));
    }
    let temporary = temporary(fs::canonicalize(target)?, &output.bytes)?;
    fs::set_permissions(&temporary.path, found.permissions())?;
    Ok(Prepared::Temporary(temporary))
}

fn temporary(target: PathBuf, bytes: &[u8]) -> io::Result<Temporary> {
    let mut name = OsString::from(".");
    name.push(target.file_name().ok_or(io::ErrorKind::NotFound)?);
    name.push(format!(".{}.tmp", process::id()));
    let path = target.with_file_name(name);
    let mut file = OpenOptions::new()
        .write(true)
        .create_new(true)
        .open(&path)?;
    let temporary = Temporary { path, target };
    file.write_all(bytes)?;
    Ok(temporary)
}
