//! The functions of crates/, read from their sources: whose they are, their code, and which names they call.

use std::fs;
use std::path::{Path, PathBuf};

use crate::sources::{repository, taken_over, text};

#[derive(Clone)]
pub struct Function {
    pub library: String,
    pub module: String,
    pub name: String,
    pub public: bool,
    /// From its name on, with its contract, without the closing brace.
    pub lines: Vec<String>,
}

/// The crates, by folder.
pub fn crates() -> Vec<PathBuf> {
    sorted(&repository().join("crates"))
}

/// What a folder holds; nothing where there is none.
pub fn sorted(folder: &Path) -> Vec<PathBuf> {
    let entries = fs::read_dir(folder).into_iter().flatten();
    let mut paths: Vec<PathBuf> = entries
        .map(|entry| entry.expect("an entry").path())
        .collect();
    paths.sort();
    paths
}

pub fn stem(path: &Path) -> String {
    path.file_stem()
        .expect("a name")
        .to_string_lossy()
        .into_owned()
}

pub fn is_name(c: char) -> bool {
    c.is_alphanumeric() || c == '_'
}

/// The functions of a file in `rt fmt`'s layout: each ends at the brace under the start of its first line.
fn functions(library: &str, module: &str, code: &str) -> Vec<Function> {
    let lines: Vec<&str> = code.lines().collect();
    let mut found = Vec::new();
    for (at, line) in lines.iter().enumerate() {
        let start = line.trim_start();
        let unexported = start
            .trim_start_matches("pub ")
            .trim_start_matches("extern \"C\" ");
        let Some(named) = unexported.strip_prefix("fn ") else {
            continue;
        };
        let end = format!("{}}}", &line[..line.len() - start.len()]);
        let length = lines[at..]
            .iter()
            .position(|l| *l == end)
            .expect("a closing brace");
        found.push(Function {
            library: library.to_string(),
            module: module.to_string(),
            name: named
                .split(|c| !is_name(c))
                .next()
                .expect("a name")
                .to_string(),
            public: start.starts_with("pub "),
            lines: lines[at..at + length]
                .iter()
                .map(|l| l.to_string())
                .collect(),
        });
    }
    found
}

/// All functions of a crate; public are those that other crates can call.
pub fn functions_of(folder: &Path) -> Vec<Function> {
    let library = stem(folder);
    let root = text(&folder.join("src/lib.rt"));
    let taken = taken_over(&root);
    let mut all = Vec::new();
    for path in sorted(&folder.join("src")) {
        let module = stem(&path);
        let open = module == "lib" || root.contains(&format!("\npub mod {module};"));
        for mut function in functions(&library, &module, &text(&path)) {
            function.public &= open || taken.contains(&(module.as_str(), function.name.as_str()));
            all.push(function);
        }
    }
    all
}

impl Function {
    /// The names that its code calls: each that stands before an opening bracket, with whatever path.
    pub fn called(&self) -> Vec<&str> {
        let code = self.lines.iter().map(|line| match line.split_once("//") {
            Some((before, _)) => before,
            None => line,
        });
        code.flat_map(|line| {
            line.match_indices('(').filter_map(|(at, _)| {
                let before = &line[..at];
                let name = before
                    .rfind(|c| !is_name(c))
                    .map_or(before, |i| &before[i..]);
                let name = name.trim_start_matches(|c| !is_name(c));
                let declared = before.ends_with(&format!("fn {name}"));
                (!name.is_empty() && !declared).then_some(name)
            })
        })
        .collect()
    }
}
