//! When the gate had proved each crate, from the log that `.ci/run` keeps.

use crate::page::{columns, heading, row};
use std::ffi::OsString;
use std::fs;

pub fn print(log: Option<OsString>) {
    let name = "The gate's time a crate";
    let text = log.and_then(|log| fs::read_to_string(log).ok());
    let crates = text.as_deref().map_or(Vec::new(), proved);
    if crates.is_empty() {
        return heading(name, "There is no log of the gate.");
    }
    heading(
        name,
        "Seconds from the start of `rt ci` until each crate was proved; they are proved side by side. One that an earlier run had proved is left out.",
    );
    columns(1, &["Crate", "s"]);
    for (name, seconds) in crates {
        row(&[name.to_string(), seconds.to_string()]);
    }
}

/// Lines such as `4 rt: base proved`, in order: the second, and what `rt ci` printed then.
fn proved(log: &str) -> Vec<(&str, u32)> {
    let mut crates = Vec::new();
    for line in log.lines() {
        let Some((seconds, said)) = line.split_once(' ') else {
            continue;
        };
        let name = said
            .strip_prefix("rt: ")
            .and_then(|rest| rest.strip_suffix(" proved"));
        if let (Ok(seconds), Some(name)) = (seconds.parse(), name) {
            if !name.contains(' ') {
                crates.push((name, seconds));
            }
        }
    }
    crates
}
