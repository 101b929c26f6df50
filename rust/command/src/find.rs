//! The whole job: a failing run of a set within a bound, by a solver or by search, confirmed by the
//! library.

use crate::answer::{counted, Answer};
use crate::arguments::{text, Arguments, OUTPUTS};
use crate::commands::bound;
use crate::confirm::confirmed;
use crate::draw;
use crate::failure::{status, Failure};
use crate::files;
use crate::json::Json;
use crate::run::Run;
use crate::search::{search, Searched};
use crate::set::Given;
use crate::verdict::{verdict, Verdict};
use crate::z3;
use deepchalk::{End, FailingRun};
use reference::script::script;
use reference::{formulas, Cell, Choice};

/// The most states that the search keeps, in about 2 GB.
const MOST_STATES: usize = 10_000_000;

/// Whose word it is: Z3 with its version, or the search with the states that it saw.
struct By {
    name: String,
    states: Option<usize>,
}

/// What a solver or the search says.
enum Word {
    /// A run, and cells of a first memory that it fails over; others are 0.
    Fails(Vec<Choice>, Vec<Cell>),
    None,
    /// No failing run was found, and why there may still be one.
    Unknown(String),
}

pub fn find(arguments: &Arguments) -> Result<Answer, Failure> {
    let given = Given::read(&arguments.inputs[0])?;
    let bound = bound(&given.set, &arguments.inputs[1])?;
    for file in OUTPUTS.iter().filter_map(|name| arguments.option(name)) {
        files::try_output(file)?;
    }
    let (by, word) = match chosen(arguments)? {
        Some(name) => {
            let states = None;
            (By { name, states }, solved(&given, bound)?)
        }
        None => searched(&given, bound),
    };
    match word {
        Word::Fails(run, cells) => {
            let (failing, end) = confirmed(&given, bound, &run, &cells)
                .map_err(|why| Failure::of_solver(&format!("{} gave a run, but {why}", by.name)))?;
            Ok(fails(arguments, bound, &by, failing, end))
        }
        Word::None => Ok(none(bound, &by)),
        Word::Unknown(why) => Ok(unknown(bound, &by, &why)),
    }
}

/// The version of Z3 where it is to be asked, none for the search.
fn chosen(arguments: &Arguments) -> Result<Option<String>, Failure> {
    let by_search = arguments.option("--search").is_some();
    let named = match arguments.option("--solver") {
        Some(word) => Some(text("--solver", word)?),
        None => None,
    };
    match (named, by_search) {
        (Some("search"), _) | (None, true) => Ok(None),
        (None, false) => Ok(z3::version()),
        (Some("z3"), false) => match z3::version() {
            None => Err(Failure::of_solver(
                "z3 is not installed; --solver search needs none",
            )),
            version => Ok(version),
        },
        (Some("z3"), true) => Err(Failure::bad_input(
            "--search and --solver z3 exclude each other",
        )),
        (Some(other), _) => {
            let line = format!("no solver {}: z3 or search", other.escape_debug());
            Err(Failure::bad_input(line))
        }
    }
}

// ---- who finds

fn solved(given: &Given, bound: u64) -> Result<Word, Failure> {
    let table = given.set.encode(bound);
    let table = table.map_err(|refusal| Failure::refused("the table", refusal))?;
    let table = formulas(&table);
    let printed = z3::ask(script(&table), table.len())?;
    let threads = given.statements.threads.len();
    match verdict(&printed, threads, bound as usize) {
        Verdict::Satisfiable(run, cells) => Ok(Word::Fails(run, cells)),
        Verdict::Unsatisfiable => Ok(Word::None),
        Verdict::Other(line) if line == "unknown" || line == "timeout" => {
            Ok(Word::Unknown(format!("z3 answers {line}")))
        }
        Verdict::Other(line) => Err(Failure::of_solver(&format!(
            "z3 answers {}",
            line.escape_debug()
        ))),
    }
}

fn searched(given: &Given, bound: u64) -> (By, Word) {
    let searched = search(&given.statements, &given.map, bound as usize, MOST_STATES);
    let by = By {
        name: "search".to_string(),
        states: Some(searched.states),
    };
    let complete = searched.complete();
    let word = match searched.failing {
        // Unlisted cells are 0, as the search had them.
        Some(run) => Word::Fails(run, given.map.clone()),
        None if complete => Word::None,
        None => Word::Unknown(reasons(&searched)),
    };
    (by, word)
}

fn reasons(searched: &Searched) -> String {
    let mut reasons = Vec::new();
    if searched.stopped {
        reasons.push(format!("it stopped at {} states", searched.states));
    }
    if !searched.lacking.is_empty() {
        let cells = searched.lacking.iter().take(8).map(u16::to_string);
        let more = if searched.lacking.len() > 8 {
            " ..."
        } else {
            ""
        };
        let cells = cells.collect::<Vec<String>>().join(" ") + more;
        reasons.push(format!("it took cells that the map lacks as 0: {cells}"));
    }
    reasons.join(", and ")
}

// ---- answers

impl By {
    fn text(&self) -> String {
        match self.states {
            Some(states) => {
                let states = counted(states as u64, "state");
                format!("the search, which saw {states}")
            }
            None => self.name.clone(),
        }
    }
}

fn fails(arguments: &Arguments, bound: u64, by: &By, failing: FailingRun, end: End) -> Answer {
    let run = Run::new(&failing.trace, Some(end)).over(&failing.map);
    let text = format!(
        "a run of {} fails\n\
         found by {}; its model passed the check, and its trace replays over the map below\n\n{}",
        counted(run.steps(), "step"),
        by.text(),
        run.text()
    );
    let mut members = head("fails", bound, by);
    members.extend(run.json());
    let picture = arguments.option("--svg").map(|_| draw::svg(&failing.trace));
    let answer = Answer {
        status: status::FAILS,
        ..Answer::new(text, Json::Object(members))
    };
    answer
        .with_file(arguments, "-o", failing.trace)
        .with_file(arguments, "-m", failing.map)
        .with_file(arguments, "--svg", picture.unwrap_or_default().into_bytes())
}

fn none(bound: u64, by: &By) -> Answer {
    let complete = match by.states {
        Some(_) => " and is complete",
        None => "",
    };
    let text = format!(
        "no run of at most {} fails\n\
         that is the word of {}{complete}; there is nothing to replay\n",
        counted(bound, "step"),
        by.text()
    );
    Answer::new(text, Json::Object(head("none", bound, by)))
}

fn unknown(bound: u64, by: &By, why: &str) -> Answer {
    let text = format!(
        "no failing run of at most {} found, but there may be one\n\
         that is the word of {}; it is not complete: {why}\n",
        counted(bound, "step"),
        by.text()
    );
    let mut members = head("unknown", bound, by);
    members.push(("why", Json::from(why)));
    Answer {
        status: status::UNKNOWN,
        ..Answer::new(text, Json::Object(members))
    }
}

fn head(answer: &str, bound: u64, by: &By) -> Vec<(&'static str, Json)> {
    let states = by.states.map(|states| Json::from(states as u64));
    vec![
        ("answer", Json::from(answer)),
        ("bound", Json::from(bound)),
        ("by", Json::from(by.name.as_str())),
        ("states", states.unwrap_or(Json::Null)),
    ]
}

#[cfg(test)]
mod tests {
    use super::*;
    use std::ops::Range;

    #[test]
    fn reasons_name_a_few_cells() {
        let searched = |stopped, cells: Range<u16>| Searched {
            failing: None,
            states: 5,
            lacking: cells.collect(),
            stopped,
        };
        let stopped = "it stopped at 5 states";
        assert_eq!(reasons(&searched(true, 0..0)), stopped);
        let lacking = "it took cells that the map lacks as 0: 0 1 2 3 4 5 6 7";
        assert_eq!(reasons(&searched(false, 0..8)), lacking);
        let both = format!("{stopped}, and {lacking} ...");
        assert_eq!(reasons(&searched(true, 0..9)), both);
    }
}
