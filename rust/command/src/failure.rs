//! The exit statuses, and why a command failed: one line for standard error.

use crate::json::Json;
use deepchalk::{Part, Refusal, Set};
use std::io;

/// What the exit status says.
pub mod status {
    /// Done; of `find`: no run fails.
    pub const DONE: u8 = 0;
    /// Of `find`: a run fails.
    pub const FAILS: u8 = 1;
    /// Arguments, or a file that cannot be read or written.
    pub const BAD_INPUT: u8 = 2;
    /// A numbered refusal.
    pub const REFUSED: u8 = 3;
    /// Of `find`: no failing run found, but there may be one.
    pub const UNKNOWN: u8 = 4;
    /// The solver is missing, or what it answers is of no use.
    pub const SOLVER: u8 = 5;
    /// A fault of the command itself.
    pub const FAULT: u8 = 6;
}

#[derive(Debug)]
pub struct Failure {
    pub status: u8,
    /// For standard error, after "deepchalk: ".
    pub line: String,
    /// What standard output gets all the same, as text and with `--json`.
    pub text: String,
    pub json: Option<Json>,
}

impl Failure {
    pub fn new(status: u8, line: impl Into<String>) -> Failure {
        Failure {
            status,
            line: line.into(),
            text: String::new(),
            json: None,
        }
    }

    pub fn bad_input(line: impl Into<String>) -> Failure {
        Failure::new(status::BAD_INPUT, line)
    }

    pub fn of_solver(line: &str) -> Failure {
        Failure::new(status::SOLVER, line)
    }

    /// What was done with which file, such as "cannot read a.txt", and the system's reason.
    pub fn of_file(what: &str, error: &io::Error) -> Failure {
        let reason = error.to_string();
        let reason = reason.split(" (os error").next().unwrap_or(&reason);
        Failure::bad_input(format!("{what}: {reason}"))
    }

    /// `about` names what was refused.
    pub fn refused(about: &str, refusal: Refusal) -> Failure {
        Failure {
            json: Some(Json::object([("refused", refusal_json(refusal))])),
            ..Failure::new(status::REFUSED, format!("{about}: {refusal}"))
        }
    }

    /// `about` names the model that a set's table for a bound refused.
    pub fn refused_model(about: &str, set: &Set, bound: u64, refusal: Refusal) -> Failure {
        let mut members = refusal_members(refusal);
        members.extend(match part(set, bound, refusal) {
            Some(Part::Map { address }) => Some(("address", Json::from(address))),
            Some(Part::Step(step)) => Some(("step", Json::from(step))),
            Some(Part::Start | Part::Goal) | None => None,
        });
        let refused = Json::Object(members);
        Failure {
            json: Some(Json::object([("refused", refused)])),
            ..Failure::new(
                status::REFUSED,
                format!("{about}: {}", of_table(set, bound, refusal)),
            )
        }
    }
}

/// A refusal by a set's table for a bound in words: a 16 says what its record belongs to.
pub fn of_table(set: &Set, bound: u64, refusal: Refusal) -> String {
    match part(set, bound, refusal) {
        Some(Part::Map { address }) => format!("{refusal}, of the map's cell {address}"),
        Some(Part::Step(step)) => format!("{refusal}, of step {step}"),
        Some(Part::Goal) => format!("{refusal}, the goal"),
        Some(Part::Start) | None => refusal.to_string(),
    }
}

fn part(set: &Set, bound: u64, refusal: Refusal) -> Option<Part> {
    match refusal {
        Refusal::NotSatisfied { record } => set.part_of(bound, record).ok().flatten(),
        _ => None,
    }
}

pub fn refusal_json(refusal: Refusal) -> Json {
    Json::Object(refusal_members(refusal))
}

fn refusal_members(refusal: Refusal) -> Vec<(&'static str, Json)> {
    vec![
        ("number", Json::from(refusal.number())),
        ("place", Json::from(refusal.place())),
        ("meaning", Json::from(refusal.meaning())),
    ]
}
