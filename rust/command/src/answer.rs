//! What a command gives: text or JSON for standard output, files, and the exit status.

use crate::arguments::Arguments;
use crate::failure::{status, Failure};
use crate::files::{self, Output};
use crate::json::Json;

#[derive(Debug)]
pub struct Answer {
    pub status: u8,
    pub text: String,
    pub json: Json,
    pub files: Vec<Output>,
}

impl Answer {
    pub fn new(text: String, json: Json) -> Answer {
        Answer {
            status: status::DONE,
            text,
            json,
            files: Vec::new(),
        }
    }

    /// With these bytes for the output that the option names, if it stands there.
    pub fn with_file(mut self, arguments: &Arguments, option: &str, bytes: Vec<u8>) -> Answer {
        let file = arguments.option(option).cloned();
        self.files.extend(file.map(|file| Output { file, bytes }));
        self
    }

    /// Files first: who reads the text finds them.
    pub fn deliver(&self, as_json: bool) -> Result<u8, Failure> {
        files::write(&self.files)?;
        // An output that goes to standard output has it for itself.
        if !self.files.iter().any(Output::is_standard) {
            print(&self.text, as_json.then_some(&self.json))?;
        }
        Ok(self.status)
    }
}

/// The text, or the JSON that stands for it.
pub fn print(text: &str, json: Option<&Json>) -> Result<(), Failure> {
    match json {
        Some(json) => files::print(format!("{json}\n").as_bytes()),
        None => files::print(text.as_bytes()),
    }
}

/// Such as "1 step" and "2 steps".
pub fn counted(number: u64, what: &str) -> String {
    let ending = if number == 1 { "" } else { "s" };
    format!("{number} {what}{ending}")
}
