//! What the pages cite is there: functions by their paths, and files.

use testing::sources::{repository, taken_over, text};

const PAGES: [&str; 10] = [
    "README.md",
    "CONTRIBUTING.md",
    "docs/ARCHITECTURE.md",
    "docs/CLAIMS.md",
    "docs/DECISIONS.md",
    "docs/PROVING.md",
    "docs/TABLE.md",
    "docs/USE.md",
    "docs/changes/2026-04.md",
    "docs/changes/2026-05.md",
];

/// The words in backquotes of a page, its blocks of code left out.
fn quoted(page: &str) -> Vec<String> {
    let mut outside = true;
    let mut words = Vec::new();
    for line in page.lines() {
        if line.starts_with("```") {
            outside = !outside;
        } else if outside {
            words.extend(line.split('`').skip(1).step_by(2).map(str::to_string));
        }
    }
    words
}

fn is_path(word: &str) -> bool {
    word.contains("::")
        && word
            .split("::")
            .all(|part| !part.is_empty() && is_name(part))
}

fn is_name(part: &str) -> bool {
    part.chars().all(|c| c.is_ascii_alphanumeric() || c == '_')
}

/// Whether a file of Rattle declares a name: a function, a module, a type or a constant, perhaps taken over from a module.
fn declares(code: &str, name: &str) -> bool {
    let declarations = ["fn", "mod", "struct", "enum", "const"];
    declarations.iter().any(|word| {
        let declaration = format!("{word} {name}");
        code.match_indices(&declaration).any(|(at, _)| {
            !code[at + declaration.len()..].starts_with(|c: char| c.is_alphanumeric() || c == '_')
        })
    }) || taken_over(code).iter().any(|(_, taken)| *taken == name)
}

/// Whether `CRATE::NAME`, `CRATE::MODULE::NAME` or `CRATE::TYPE::NAME` is there.
fn is_there(path: &str) -> bool {
    let parts: Vec<&str> = path.split("::").collect();
    let folder = repository().join("crates").join(parts[0]).join("src");
    let module = folder.join(format!("{}.rt", parts[1]));
    let file = if parts.len() > 2 && module.exists() {
        module
    } else if folder.join("lib.rt").exists() {
        folder.join("lib.rt")
    } else {
        folder.join("main.rt")
    };
    declares(&text(&file), parts[parts.len() - 1])
}

#[test]
fn the_functions_that_pages_cite_are_there() {
    let mut counted = 0;
    for page in PAGES {
        for word in quoted(&text(&repository().join(page))) {
            let start = word.split("::").next().expect("a start");
            let of_a_crate = repository().join("crates").join(start).exists();
            if is_path(&word) && of_a_crate {
                assert!(is_there(&word), "{page}: {word}");
                counted += 1;
            }
        }
    }
    assert!(counted > 50);
}

#[test]
fn the_files_that_pages_cite_are_there() {
    let mut counted = 0;
    for page in PAGES {
        for word in quoted(&text(&repository().join(page))) {
            let of_the_repository = ["crates/", "rust/", "bin/", "tools/", "include/"]
                .iter()
                .any(|folder| word.starts_with(folder));
            let plain = !word.contains(|c: char| "*{ ".contains(c) || c.is_ascii_uppercase())
                || word.ends_with(".antt") && !word.contains(['*', '{', ' ']);
            if of_the_repository && plain && !word.contains("CRATE") {
                let path = repository().join(&word);
                assert!(path.exists(), "{page}: {word}");
                counted += 1;
            }
        }
    }
    assert!(counted > 50);
}
