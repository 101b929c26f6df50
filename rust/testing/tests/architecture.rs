//! crates.txt and the table of docs/ARCHITECTURE.md name, for each crate, exactly the crates that its files use; each
//! definition file says whether a reader must believe it.

use std::collections::{BTreeMap, BTreeSet};
use std::fs;
use std::path::{Path, PathBuf};

use testing::sources::{listed, repository, text};

type Uses = BTreeMap<String, BTreeSet<String>>;

/// Libraries of the Rattle kit that a crate may name. `std` is always there and in no line of crates.txt.
const KIT: [&str; 2] = ["bytes", "check"];

/// How a file of specs/ says what it is for; those of `claims` hold statements alone, which are proved.
const PURPOSES: [&str; 4] = [
    "A reader of the calls believes this.",
    "This serves the code; no call's promise needs it.",
    "The claims say what this means; a reader need not believe it.",
    "Statements alone; proofs/",
];

/// All files below a folder with one of these endings, but for a crate's out/, which holds what `rt` made.
fn files(folder: &Path, endings: &[&str]) -> Vec<PathBuf> {
    let mut found = Vec::new();
    for entry in fs::read_dir(folder).into_iter().flatten() {
        let path = entry.expect("an entry").path();
        if path.is_dir() {
            if !path.ends_with("out") {
                found.extend(files(&path, endings));
            }
        } else if endings
            .iter()
            .any(|e| path.extension().is_some_and(|x| x == *e))
        {
            found.push(path);
        }
    }
    found.sort();
    found
}

fn is_name(c: char) -> bool {
    c.is_alphanumeric() || c == '_'
}

/// Whether code names a crate: by a path in Rattle, or by a module of its definitions or proofs.
fn names(code: &str, name: &str, rattle: bool) -> bool {
    let proved = code.contains(&format!("Rattle.{name}."));
    let path = format!("{name}::");
    let called = |at: usize| !code[..at].ends_with(|c| is_name(c) || c == ':');
    proved || rattle && code.match_indices(&path).any(|(at, _)| called(at))
}

/// A file without its comments.
fn code_of(path: &Path) -> String {
    let mark = if path.extension().is_some_and(|x| x == "rt") {
        "//"
    } else {
        "-- "
    };
    let page = text(path);
    let lines = page
        .lines()
        .map(|line| line.split(mark).next().expect("a start"));
    lines.collect::<Vec<_>>().join("\n")
}

/// What the files of each crate name.
fn used() -> Uses {
    let names_of: Vec<String> = listed().into_iter().map(|(name, _)| name).collect();
    let mut uses = Uses::new();
    for name in &names_of {
        let folder = repository().join("crates").join(name);
        let mut found = BTreeSet::new();
        for path in files(&folder, &["rt", "antt"]) {
            let rattle = path.extension().is_some_and(|x| x == "rt");
            let code = code_of(&path);
            let others = names_of.iter().map(String::as_str).chain(KIT);
            for other in others.filter(|other| other != name) {
                // a module of the crate's own has the nearer meaning
                let own = folder.join(format!("src/{other}.rt")).exists();
                if names(&code, other, rattle && !own) {
                    found.insert(other.to_string());
                }
            }
        }
        uses.insert(name.clone(), found);
    }
    uses
}

/// The words in backquotes of a cell of a table.
fn quoted(cell: &str) -> BTreeSet<String> {
    cell.split('`')
        .skip(1)
        .step_by(2)
        .map(str::to_string)
        .collect()
}

/// The rows of the table of crates: the crate, and what it uses.
fn documented() -> Vec<(String, BTreeSet<String>)> {
    let page = text(&repository().join("docs/ARCHITECTURE.md"));
    let rows = page
        .lines()
        .skip_while(|line| !line.starts_with("| Crate |"));
    let rows = rows.skip(2).take_while(|line| line.starts_with('|'));
    rows.map(|row| {
        let cells: Vec<&str> = row.trim_matches('|').split('|').collect();
        let name = quoted(cells[0]).into_iter().next().expect("a crate");
        (name, quoted(cells.last().expect("a last cell")))
    })
    .collect()
}

#[test]
fn crates_txt_lists_what_is_used() {
    let used = used();
    assert!(used.len() > 20);
    for (name, uses) in listed() {
        assert_eq!(uses, used[&name], "crates.txt, {name}");
    }
}

#[test]
fn crates_txt_lists_lower_crates_first() {
    let mut seen: BTreeSet<String> = KIT.iter().map(|name| name.to_string()).collect();
    for (name, uses) in listed() {
        assert!(uses.is_subset(&seen), "{name} stands before what it uses");
        seen.insert(name);
    }
}

#[test]
fn the_architecture_page_has_what_is_used() {
    let used = used();
    let rows = documented();
    let names: BTreeSet<&String> = rows.iter().map(|(name, _)| name).collect();
    assert_eq!(names, used.keys().collect(), "the crates of the page");
    assert_eq!(names.len(), rows.len(), "a crate has two rows");
    for (name, uses) in &rows {
        assert_eq!(uses, &used[name], "docs/ARCHITECTURE.md, {name}");
    }
}

#[test]
fn each_definition_file_says_whether_it_is_believed() {
    let mut counted = 0;
    for path in files(&repository().join("crates"), &["antt"]) {
        let below_specs = path.parent().is_some_and(|p| p.ends_with("specs"));
        if !below_specs || path.ends_with("Lib.antt") {
            continue;
        }
        let page = text(&path);
        let head = page.lines().take_while(|line| line.starts_with("--"));
        let head = head
            .map(|line| line.trim_start_matches("-- "))
            .collect::<Vec<_>>()
            .join(" ");
        let says = PURPOSES.iter().filter(|s| head.contains(**s)).count();
        assert_eq!(says, 1, "{}", path.display());
        counted += 1;
    }
    assert!(counted > 20);
}
