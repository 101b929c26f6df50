//! The must-fail edits of crates/. Each public function has at least two wrong answers, in its own code or in that of
//! private functions that it calls; each says where it is refused, and `.ci/run` looks there after the proofs.
//! Run with --nocapture to see them by function.

use std::collections::BTreeSet;
use std::path::{Path, PathBuf};

use testing::functions::{crates, functions_of, is_name, sorted, stem, Function};
use testing::sources::text;

/// At least so many for each public function.
const WANTED: usize = 2;

struct Replacement {
    file: String,
    old: String,
    new: String,
}

#[derive(Default)]
struct Answer {
    name: String,
    refused: Vec<String>,
    replacements: Vec<Replacement>,
}

struct Edit {
    path: PathBuf,
    answers: Vec<Answer>,
}

/// An edit's wrong answers; one that names none is one itself.
fn edit(path: PathBuf) -> Edit {
    let mut answers = vec![Answer {
        name: stem(&path),
        ..Answer::default()
    }];
    let mut file = String::new();
    let mut old = String::new();
    for line in text(&path).lines() {
        let (word, rest) = line.split_once(": ").unwrap_or((line, ""));
        let answer = answers.last_mut().expect("an answer");
        match word {
            "name" => answers.push(Answer {
                name: rest.to_string(),
                ..Answer::default()
            }),
            "refused" => answer.refused.push(rest.to_string()),
            "file" => file = rest.to_string(),
            "old" => old = rest.to_string(),
            "new" => answer.replacements.push(Replacement {
                file: file.clone(),
                old: old.clone(),
                new: rest.to_string(),
            }),
            _ => {}
        }
    }
    answers.retain(|answer| !answer.replacements.is_empty());
    Edit { path, answers }
}

fn edits_of(folder: &Path) -> Vec<Edit> {
    sorted(&folder.join("must-fail"))
        .into_iter()
        .map(edit)
        .collect()
}

fn changes(answer: &Answer, function: &Function) -> bool {
    let file = format!("src/{}.rt", function.module);
    answer
        .replacements
        .iter()
        .any(|r| r.file == file && function.lines.iter().any(|line| line.contains(&r.old)))
}

/// Whether a function's code has a call of another one of its crate.
fn calls(all: &[Function], caller: &Function, callee: &Function) -> bool {
    let nearer = caller.module != callee.module
        && all
            .iter()
            .any(|f| f.name == callee.name && f.module == caller.module);
    let call = format!("{}(", callee.name);
    let called = |before: &str| match before.strip_suffix("::") {
        Some(path) => path.ends_with(&callee.module),
        None => !nearer && !before.ends_with(|c| is_name(c) || c == '.'),
    };
    let mut lines = caller.lines.iter();
    lines.any(|line| line.match_indices(&call).any(|(at, _)| called(&line[..at])))
}

/// The wrong answers of a function's code, that of the private functions that it calls included.
fn answers_for<'a>(all: &[Function], answers: &[&'a Answer], at: usize) -> BTreeSet<&'a str> {
    let mut reached = vec![at];
    let mut next = 0;
    while next < reached.len() {
        let caller = &all[reached[next]];
        for (callee, function) in all.iter().enumerate() {
            if !function.public && !reached.contains(&callee) && calls(all, caller, function) {
                reached.push(callee);
            }
        }
        next += 1;
    }
    let wrong = answers
        .iter()
        .filter(|answer| reached.iter().any(|f| changes(answer, &all[*f])));
    wrong.map(|answer| answer.name.as_str()).collect()
}

#[test]
fn each_public_function_has_two_wrong_answers() {
    let mut counted = 0;
    let mut few = Vec::new();
    for folder in crates()
        .iter()
        .filter(|folder| folder.join("src/lib.rt").exists())
    {
        let all = functions_of(folder);
        let edits = edits_of(folder);
        let answers: Vec<&Answer> = edits.iter().flat_map(|edit| &edit.answers).collect();
        for at in (0..all.len()).filter(|at| all[*at].public) {
            let found: Vec<&str> = answers_for(&all, &answers, at).into_iter().collect();
            let name = format!("{} {}::{}", stem(folder), all[at].module, all[at].name);
            println!("{name:<44} {}", found.join(", "));
            counted += 1;
            if found.len() < WANTED {
                few.push(name);
            }
        }
    }
    println!("{counted} public functions");
    assert!(counted > 0);
    assert_eq!(
        few,
        Vec::<String>::new(),
        "with fewer than {WANTED} wrong answers"
    );
}

#[test]
fn each_wrong_answer_says_where_it_is_refused() {
    let mut counted = 0;
    for folder in crates() {
        let mut names = BTreeSet::new();
        for answer in edits_of(&folder).into_iter().flat_map(|edit| edit.answers) {
            let name = format!("{}/{}", stem(&folder), answer.name);
            assert_eq!(answer.refused.len(), 1, "{name}");
            assert!(names.insert(answer.name), "{name} is there twice");
            counted += 1;
        }
    }
    println!("{counted} wrong answers");
    assert!(counted > 0);
}

/// Where two wrong answers of one edit name one declaration, its refusal may be of either.
#[test]
fn each_wrong_answer_of_an_edit_has_a_place_of_its_own() {
    for folder in crates() {
        for edit in edits_of(&folder) {
            let mut places = BTreeSet::new();
            for place in edit.answers.into_iter().flat_map(|answer| answer.refused) {
                assert!(
                    places.insert(place.clone()),
                    "{}: {place}",
                    edit.path.display()
                );
            }
        }
    }
}

/// `rt` takes the replacements of an edit one after the other, each text once in its file.
#[test]
fn each_edit_fits_its_files() {
    for folder in crates() {
        for edit in edits_of(&folder) {
            let mut changed: Vec<(String, String)> = Vec::new();
            for r in edit.answers.iter().flat_map(|answer| &answer.replacements) {
                let at = changed
                    .iter()
                    .position(|(file, _)| *file == r.file)
                    .unwrap_or_else(|| {
                        changed.push((r.file.clone(), text(&folder.join(&r.file))));
                        changed.len() - 1
                    });
                let code = &mut changed[at].1;
                assert_eq!(
                    code.matches(&r.old).count(),
                    1,
                    "{}: {}",
                    edit.path.display(),
                    r.old
                );
                *code = code.replacen(&r.old, &r.new, 1);
            }
        }
    }
}

/// docs/CLAIMS.md cites wrong answers as CRATE/`name`, several of one crate with commas between.
#[test]
fn the_claims_page_cites_wrong_answers_that_are_there() {
    let page = include_str!("../../../docs/CLAIMS.md");
    let mut counted = 0;
    for folder in crates() {
        let edits = edits_of(&folder);
        let names: BTreeSet<&str> = edits
            .iter()
            .flat_map(|edit| &edit.answers)
            .map(|answer| answer.name.as_str())
            .collect();
        let cited = format!("{}/`", stem(&folder));
        for (at, _) in page
            .match_indices(&cited)
            .filter(|(at, _)| !page[..*at].ends_with(is_name))
        {
            let mut rest = &page[at + cited.len() - 1..];
            while let Some((name, after)) = rest
                .strip_prefix('`')
                .and_then(|quoted| quoted.split_once('`'))
            {
                assert!(names.contains(name), "{}/{name}", stem(&folder));
                counted += 1;
                rest = after.strip_prefix(", ").unwrap_or("");
            }
        }
    }
    println!("{counted} citations");
    assert!(counted > 0);
}
