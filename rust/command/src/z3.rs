//! The solver Z3 as a process: a script goes in, its answer comes out.

use crate::failure::Failure;
use crate::progress::Progress;
use std::io::{self, Write};
use std::process::{Child, Command, Output, Stdio};
use std::sync::mpsc::{self, RecvTimeoutError};
use std::thread;
use std::time::Duration;

/// Such as "Z3 version 4.8.12"; none where it is not installed.
pub fn version() -> Option<String> {
    let output = Command::new("z3").arg("--version").output().ok()?;
    let line = String::from_utf8(output.stdout).ok()?;
    let version = line.lines().next()?.split(" - ").next()?;
    (output.status.success() && !version.is_empty()).then(|| version.to_string())
}

/// What Z3 prints for the script. `records` are told in its progress.
pub fn ask(script: String, records: usize) -> Result<String, Failure> {
    let mut progress = Progress::start();
    let failed = |error: io::Error| Failure::of_solver(&format!("z3 does not run: {error}"));
    let mut z3 = spawn().map_err(failed)?;
    let input = z3.stdin.take();
    let (sender, receiver) = mpsc::channel();
    // Two threads, since Z3 may print before it has read all.
    thread::spawn(move || input.map(|mut input| input.write_all(script.as_bytes())));
    thread::spawn(move || sender.send(z3.wait_with_output()));
    let output = loop {
        match receiver.recv_timeout(Duration::from_millis(200)) {
            Ok(output) => break output.map_err(failed)?,
            Err(RecvTimeoutError::Timeout) => {
                progress.say(|| {
                    format!("z3 works on a table of {records} records (--search may be quicker)")
                });
            }
            Err(RecvTimeoutError::Disconnected) => {
                return Err(Failure::of_solver("z3's answer was lost"));
            }
        }
    };
    printed(output)
}

fn printed(output: Output) -> Result<String, Failure> {
    let printed = String::from_utf8_lossy(&output.stdout).into_owned();
    if printed.is_empty() {
        let line = format!("z3 prints nothing and ends with {}", output.status);
        return Err(Failure::of_solver(&line));
    }
    Ok(printed)
}

fn spawn() -> io::Result<Child> {
    let mut command = Command::new("z3");
    command
        .args(["-smt2", "-in"])
        .stdin(Stdio::piped())
        .stdout(Stdio::piped())
        .stderr(Stdio::null());
    die_with_us(&mut command);
    command.spawn()
}

/// Z3 would go on for hours after we are killed.
#[cfg(target_os = "linux")]
fn die_with_us(command: &mut Command) {
    use std::ffi::{c_int, c_ulong};
    use std::os::unix::process::CommandExt;
    extern "C" {
        fn prctl(option: c_int, ...) -> c_int;
    }
    const PR_SET_PDEATHSIG: c_int = 1;
    const SIGKILL: c_ulong = 9;
    // SAFETY: between fork and exec this makes one system call, which touches no memory.
    unsafe {
        command.pre_exec(|| match prctl(PR_SET_PDEATHSIG, SIGKILL) {
            0 => Ok(()),
            _ => Err(io::Error::last_os_error()),
        });
    }
}

#[cfg(not(target_os = "linux"))]
fn die_with_us(_command: &mut Command) {}
