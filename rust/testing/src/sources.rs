//! The repository's own files, for tests that compare pages, edits and sources.

use std::collections::BTreeSet;
use std::fs;
use std::path::{Path, PathBuf};

/// The top of the repository.
pub fn repository() -> PathBuf {
    Path::new(env!("CARGO_MANIFEST_DIR")).join("../..")
}

/// The crates of crates.txt in its order, each with those that it lists. A static library has a word more before the colon.
pub fn listed() -> Vec<(String, BTreeSet<String>)> {
    let page = text(&repository().join("crates.txt"));
    let lines = page.lines().map(|line| match line.split_once('#') {
        Some((before, _)) => before,
        None => line,
    });
    let lines = lines.filter(|line| !line.trim().is_empty());
    lines
        .map(|line| {
            let (head, uses) = line.split_once(':').expect("NAME: LIBRARY ..");
            let mut words = head.split_whitespace();
            let name = words.next().expect("a name").to_string();
            assert!(matches!(words.next(), None | Some("staticlib")), "{line}");
            assert_eq!(words.next(), None, "{line}");
            let uses = uses.split_whitespace().map(str::to_string);
            (name, uses.collect())
        })
        .collect()
}

/// What code takes over from its modules, each name after its module: `pub use MODULE::NAME;`, or several names in braces.
pub fn taken_over(code: &str) -> Vec<(&str, &str)> {
    let mut taken = Vec::new();
    for (at, start) in code.match_indices("\npub use ") {
        let (item, _) = code[at + start.len()..].split_once(';').expect("an end");
        let (module, names) = match item.split_once("::{") {
            Some((module, names)) => (module, names.strip_suffix('}').expect("an end")),
            None => item.rsplit_once("::").expect("a module"),
        };
        assert!(!names.contains(['{', ':']), "pub use {item}");
        let names = names.split(',').map(str::trim);
        taken.extend(names.filter(|n| !n.is_empty()).map(|name| (module, name)));
    }
    taken
}

/// A file's text; a file that cannot be read fails the test with its path.
pub fn text(path: &Path) -> String {
    fs::read_to_string(path).unwrap_or_else(|e| panic!("{}: {e}", path.display()))
}
