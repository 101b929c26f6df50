//! Change request 2026-04: "no function of the look-up calls itself, directly or through another". The look-up is
//! `evaluation::read_back` with all that it reaches; who calls whom is read from the sources.
//! Run with --nocapture to see them.

use std::collections::{BTreeMap, BTreeSet};

use testing::functions::{crates, functions_of, sorted, Function};
use testing::sources::{listed, repository, text};

/// What is called in Rattle itself: methods of its library, and variants that hold a value. A closure that one is given calls what
/// stands in it, and that is read with the function around it.
const BUILT_IN: [&str; 14] = [
    "binary_search_by_key",
    "copied",
    "from",
    "from_le_bytes",
    "get",
    "iter",
    "len",
    "position",
    "to_le_bytes",
    "unwrap",
    "unwrap_or",
    "Err",
    "Ok",
    "Some",
];

/// The functions that the look-up is known to have.
const LOOK_UP: [&str; 10] = [
    "base::byte_at",
    "base::word_at",
    "decoding::cell_of",
    "evaluation::behind",
    "evaluation::first",
    "evaluation::formula",
    "evaluation::search",
    "evaluation::value",
    "table::formula_at",
    "table::record",
];

/// Each crate with itself and those that crates.txt lists for it: only their functions can be called.
fn visible() -> BTreeMap<String, BTreeSet<String>> {
    let lines = listed().into_iter();
    lines
        .map(|(name, mut uses)| {
            uses.insert(name.clone());
            (name, uses)
        })
        .collect()
}

/// All functions of all crates with a library.
fn sources() -> Vec<Function> {
    let folders = crates().into_iter();
    folders
        .filter(|folder| folder.join("src/lib.rt").exists())
        .flat_map(|folder| functions_of(&folder))
        .collect()
}

/// For each function those that it may call. A call is taken for one of every function of that name that the crate can see, so
/// that no path has to be read and no call is missed.
struct Graph {
    names: Vec<String>,
    calls: Vec<Vec<usize>>,
    unknown: Vec<Vec<String>>,
}

impl Graph {
    fn new(all: &[Function]) -> Graph {
        let visible = visible();
        let may_mean = |caller: &Function, name: &str| -> Vec<usize> {
            let seen = &visible[&caller.library];
            (0..all.len())
                .filter(|at| all[*at].name == name && seen.contains(&all[*at].library))
                .collect()
        };
        let unknown = |caller: &Function| {
            let names = caller.called().into_iter();
            let names = names.filter(|n| !BUILT_IN.contains(n) && may_mean(caller, n).is_empty());
            names.map(str::to_string).collect()
        };
        let calls = |caller: &Function| {
            let names = caller.called().into_iter();
            names.flat_map(|name| may_mean(caller, name)).collect()
        };
        Graph {
            names: all
                .iter()
                .map(|f| format!("{}::{}", f.library, f.name))
                .collect(),
            calls: all.iter().map(calls).collect(),
            unknown: all.iter().map(unknown).collect(),
        }
    }

    fn at(&self, name: &str) -> usize {
        let found = self.names.iter().position(|n| n == name);
        found.unwrap_or_else(|| panic!("no function {name}"))
    }

    /// All functions that a function reaches.
    fn reached(&self, from: usize) -> BTreeSet<usize> {
        let mut reached = BTreeSet::new();
        let mut left = self.calls[from].clone();
        while let Some(next) = left.pop() {
            if reached.insert(next) {
                left.extend(&self.calls[next]);
            }
        }
        reached
    }

    /// Those of a function and of what it reaches that reach themselves.
    fn in_cycles(&self, from: usize) -> Vec<&str> {
        let all = self.reached(from).into_iter().chain([from]);
        let again: BTreeSet<usize> = all.filter(|f| self.reached(*f).contains(f)).collect();
        again.into_iter().map(|f| self.names[f].as_str()).collect()
    }
}

/// The functions in a cycle below the look-up once a function's code has one call more.
fn in_cycles_with(function: &str, call: &str) -> Vec<String> {
    let mut all = sources();
    let at = Graph::new(&all).at(function);
    all[at].lines.push(format!("    {call}(work, n);"));
    let graph = Graph::new(&all);
    let found = graph.in_cycles(graph.at("evaluation::read_back"));
    found.into_iter().map(str::to_string).collect()
}

/// Whether a crate calls a function by another name than its own, which the graph would not see.
fn renames(library: &str) -> bool {
    let folder = repository().join("crates").join(library).join("src");
    let files = sorted(&folder).into_iter().map(|path| text(&path));
    files.into_iter().any(|code| {
        let mut lines = code.lines().map(str::trim_start);
        lines.any(|line| line.starts_with("use ") && line.contains(" as "))
    })
}

#[test]
fn no_function_of_the_look_up_calls_itself() {
    let all = sources();
    let graph = Graph::new(&all);
    let look_up = graph.at("evaluation::read_back");
    let reached = graph.reached(look_up);
    for &f in &reached {
        assert!(!renames(&all[f].library), "{} renames", all[f].library);
    }
    for &f in &reached {
        println!("{}", graph.names[f]);
    }
    for name in LOOK_UP {
        assert!(reached.contains(&graph.at(name)), "{name} is not reached");
    }
    for f in reached.into_iter().chain([look_up]) {
        assert!(
            graph.unknown[f].is_empty(),
            "{} calls {:?}",
            graph.names[f],
            graph.unknown[f]
        );
    }
    assert_eq!(graph.in_cycles(look_up), Vec::<&str>::new());
}

#[test]
fn a_function_that_calls_itself_is_found() {
    let found = in_cycles_with("evaluation::read_back", "read_back");
    assert_eq!(found, ["evaluation::read_back"]);
    let found = in_cycles_with("base::word_at", "word_at");
    assert_eq!(found, ["base::word_at"]);
}

#[test]
fn functions_that_call_each_other_are_found() {
    let found = in_cycles_with("evaluation::behind", "read_back");
    assert_eq!(found, ["evaluation::behind", "evaluation::read_back"]);
    let found = in_cycles_with("base::byte_at", "word_at");
    assert_eq!(found, ["base::byte_at", "base::word_at"]);
}

#[test]
fn a_call_without_a_way_back_is_no_cycle() {
    let found = in_cycles_with("evaluation::behind", "search");
    assert_eq!(found, Vec::<String>::new());
}
