//! A set text from a file: the library's set and its records as the second simulator has them.

use crate::failure::Failure;
use crate::files;
use crate::json::Json;
use deepchalk::{MAX_SET_MAP, MAX_TEXT};
use reference::{accept_map, accept_set, Cell, Statement};
use std::ffi::OsStr;
use std::fmt::Write;

pub struct Given {
    pub set: deepchalk::Set,
    pub statements: reference::Set,
    pub map: Vec<Cell>,
}

impl Given {
    pub fn read(file: &OsStr) -> Result<Given, Failure> {
        let text = files::read(file, MAX_TEXT)?;
        let set = deepchalk::Set::read(&text);
        let set = set.map_err(|refusal| Failure::refused(&files::name(file), refusal))?;
        Ok(Given::of(set))
    }

    pub fn of(set: deepchalk::Set) -> Given {
        Given {
            statements: accept_set(set.statements()).expect("the library accepted them"),
            map: accept_map(set.map(), MAX_SET_MAP).expect("the library accepted it"),
            set,
        }
    }

    /// As a set text that gives the same records, with each statement's pc.
    pub fn text(&self) -> String {
        let mut text = String::new();
        for (thread, statements) in self.statements.threads.iter().enumerate() {
            let _ = writeln!(text, "# thread {thread}");
            for (pc, statement) in statements.iter().enumerate() {
                let _ = writeln!(text, "{:<14} # {pc}", statement.to_string());
            }
            text += ".\n";
        }
        text + "# map\n" + &map_text(&self.map)
    }

    pub fn json(&self) -> Json {
        let thread = |statements: &Vec<Statement>| {
            let statements = (0u16..).zip(statements);
            Json::list(statements.map(|(pc, &statement)| {
                let mut members = vec![("pc", Json::from(pc))];
                members.extend(statement_json(Some(statement)));
                Json::Object(members)
            }))
        };
        let threads = self.statements.threads.iter().map(thread);
        Json::object([
            ("threads", Json::list(threads)),
            ("map", map_json(&self.map)),
        ])
    }
}

/// Word, argument and whether it is indirect; none stands for a flush.
pub fn statement_json(statement: Option<Statement>) -> [(&'static str, Json); 3] {
    let with_argument = statement.filter(|s| s.instruction.has_argument());
    [
        (
            "word",
            Json::from(statement.map_or("FLUSH", |s| s.instruction.word())),
        ),
        (
            "argument",
            with_argument.map_or(Json::Null, |s| Json::from(s.argument)),
        ),
        (
            "indirect",
            Json::Bool(statement.is_some_and(|s| s.indirect)),
        ),
    ]
}

/// The map's lines in a set text.
pub fn map_text(map: &[Cell]) -> String {
    let line = |cell: &Cell| format!("{} {}\n", cell.address, cell.value);
    map.iter().map(line).collect()
}

pub fn map_json(map: &[Cell]) -> Json {
    Json::list(map.iter().map(|&cell| cell_json(cell)))
}

pub fn cell_json(cell: Cell) -> Json {
    Json::object([
        ("address", Json::from(cell.address)),
        ("value", Json::from(cell.value)),
    ])
}

#[cfg(test)]
mod tests {
    use super::*;

    #[test]
    fn the_text_gives_the_same_records() {
        let text = b"a: LOAD [7]\nJNZNS a # x\nFENCE\n.\nCHECK 65535\nEXIT 9\n.\n9 1\n3 65535\n";
        let given = Given::of(deepchalk::Set::read(text).unwrap());
        let printed = given.text();
        let again = Given::of(deepchalk::Set::read(printed.as_bytes()).unwrap());
        assert_eq!(again.set, given.set);
        assert_eq!(again.text(), printed);
        assert!(printed.starts_with("# thread 0\nLOAD [7]       # 0\nJNZNS 0        # 1\n"));
        assert!(printed.ends_with(".\n# map\n3 65535\n9 1\n"));
    }
}
