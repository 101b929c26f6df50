//! The commands that need no solver.

use crate::answer::{counted, Answer};
use crate::arguments::{shown, text, Arguments};
use crate::choices;
use crate::draw;
use crate::failure::{refusal_json, Failure};
use crate::files;
use crate::json::Json;
use crate::run::Run;
use crate::set::Given;
use crate::steps;
use deepchalk::{End, Refusal, Set, FORMULA_BYTES, MAP_ROOM, MAX_STEPS, MAX_TEXT, STEP_BYTES};
use reference::records::MAX_THREADS;
use std::ffi::{OsStr, OsString};

pub fn read(arguments: &Arguments) -> Result<Answer, Failure> {
    let given = Given::read(&arguments.inputs[0])?;
    Ok(Answer::new(given.text(), given.json()))
}

// ---- runs

/// Document 01's listing: a refusal is its last line too.
pub fn list(arguments: &Arguments) -> Result<Answer, Failure> {
    let file = &arguments.inputs[0];
    let text = files::read(file, MAX_TEXT)?;
    let (trace, end) = match Set::read(&text) {
        Ok(set) => listed(&set),
        Err(refusal) => (Vec::new(), Err(refusal)),
    };
    let run = Run::new(&trace, end.ok());
    match end {
        Ok(_) => Ok(Answer::new(run.text(), Json::Object(run.json()))),
        Err(refusal) => {
            let refused = ("refused", refusal_json(refusal));
            let members = run.json().into_iter().chain([refused]);
            Err(Failure {
                text: format!("{}refused {}\n", run.text(), refusal.number()),
                json: Some(Json::Object(members.collect())),
                ..Failure::refused(&files::name(file), refusal)
            })
        }
    }
}

/// The trace and the end where at each step the lowest thread that can execute does so, else the
/// lowest that can flush.
fn listed(set: &Set) -> (Vec<u8>, Result<End, Refusal>) {
    let threads = 0..MAX_THREADS as u8;
    let choices: Vec<u8> = threads.clone().chain(threads.map(|t| 128 + t)).collect();
    let mut schedule = Vec::new();
    let mut trace = Vec::new();
    loop {
        let mut end = End::Stuck;
        for &choice in &choices {
            schedule.push(choice);
            match set.simulate(&schedule) {
                Ok((longer, ran)) => {
                    (trace, end) = (longer, ran.end);
                    break;
                }
                Err(Refusal::NotPermitted { .. }) => schedule.pop(),
                Err(refusal) => return (trace, Err(refusal)),
            };
        }
        if end != End::Open || schedule.len() == MAX_STEPS {
            return (trace, Ok(end));
        }
    }
}

pub fn simulate(arguments: &Arguments) -> Result<Answer, Failure> {
    let given = Given::read(&arguments.inputs[0])?;
    let schedule = choices::schedule(&schedule_words(&arguments.inputs[1..])?)?;
    let map = given_map(arguments, &given)?;
    let ran = given.set.simulate_over(&map, &schedule);
    let (trace, ran) = ran.map_err(|refusal| refused_run(arguments, "the schedule", refusal))?;
    let run = Run::new(&trace, Some(ran.end));
    let answer = Answer::new(run.text(), Json::Object(run.json()));
    Ok(answer.with_file(arguments, "-o", trace))
}

/// The words of all arguments, or those on standard input for a sole `-`.
fn schedule_words(words: &[OsString]) -> Result<String, Failure> {
    // 64 choices with their blanks, and much room for more blanks.
    const LIMIT: usize = 65_536;
    if words != ["-"] {
        let words: Result<Vec<&str>, Failure> =
            words.iter().map(|word| text("a choice", word)).collect();
        return Ok(words?.join(" "));
    }
    let bytes = files::read(OsStr::new("-"), LIMIT)?;
    String::from_utf8(bytes).map_err(|_| Failure::bad_input("standard input is not UTF-8"))
}

pub fn replay(arguments: &Arguments) -> Result<Answer, Failure> {
    let given = Given::read(&arguments.inputs[0])?;
    let file = &arguments.inputs[1];
    let trace = files::read(file, MAX_STEPS * STEP_BYTES)?;
    let map = given_map(arguments, &given)?;
    let ran = given.set.replay_over(&map, &trace);
    let ran = ran.map_err(|refusal| refused_run(arguments, &files::name(file), refusal))?;
    let mut members = vec![("steps", Json::from(ran.steps))];
    members.extend(steps::end_json(Some(ran.end)));
    let steps = counted(ran.steps.into(), "step");
    let text = format!("replays: {steps}, {}\n", ran.end);
    Ok(Answer::new(text, Json::Object(members)))
}

/// The set's own map, or the one that `--map` names.
fn given_map(arguments: &Arguments, given: &Given) -> Result<Vec<u8>, Failure> {
    match arguments.option("--map") {
        Some(file) => files::read(file, MAP_ROOM),
        None => Ok(given.set.map().to_vec()),
    }
}

/// The set is accepted, so that 9 speaks of the map.
fn refused_run(arguments: &Arguments, about: &str, refusal: Refusal) -> Failure {
    match (refusal, arguments.option("--map")) {
        (Refusal::Records, Some(map)) => Failure::refused(&files::name(map), refusal),
        _ => Failure::refused(about, refusal),
    }
}

// ---- tables and models

pub fn encode(arguments: &Arguments) -> Result<Answer, Failure> {
    let given = Given::read(&arguments.inputs[0])?;
    let bound = bound(&given.set, &arguments.inputs[1])?;
    let refused = |refusal| Failure::refused("the table", refusal);
    let records = given.set.table_size(bound).map_err(refused)?;
    let bytes = records as usize * FORMULA_BYTES;
    let json = Json::object([
        ("records", Json::from(records)),
        ("bytes", Json::from(bytes as u64)),
    ]);
    let size = format!("{records} records, {bytes} bytes");
    match arguments.option("-o") {
        None => Ok(Answer::new(format!("{size}; -o TABLE writes them\n"), json)),
        Some(file) => {
            let table = given.set.encode(bound).map_err(refused)?;
            let answer = Answer::new(format!("{size}, written to {}\n", shown(file)), json);
            Ok(answer.with_file(arguments, "-o", table))
        }
    }
}

/// The bound that the library takes; 10 refuses it here.
pub fn bound(set: &Set, word: &OsStr) -> Result<u64, Failure> {
    let digits = text("K", word)?;
    let number = digits.parse().ok();
    let number = number.filter(|_| digits.bytes().all(|digit| digit.is_ascii_digit()));
    let bound = number.ok_or_else(|| {
        let line = format!("K is a number from 1 to 64, not {}", shown(word));
        Failure::bad_input(line)
    })?;
    match set.table_size(bound) {
        Ok(_) => Ok(bound),
        Err(refusal) => Err(Failure::refused(&format!("K {bound}"), refusal)),
    }
}

/// Set, bound, and the model with its name.
fn question(arguments: &Arguments) -> Result<(Given, u64, Vec<u8>, String), Failure> {
    let given = Given::read(&arguments.inputs[0])?;
    let bound = bound(&given.set, &arguments.inputs[1])?;
    let file = &arguments.inputs[2];
    let model = files::read(file, 2 * MAX_THREADS * MAX_STEPS + MAP_ROOM)?;
    Ok((given, bound, model, files::name(file)))
}

pub fn check(arguments: &Arguments) -> Result<Answer, Failure> {
    let (given, bound, model, name) = question(arguments)?;
    let refused = |refusal| Failure::refused_model(&name, &given.set, bound, refusal);
    given.set.check(bound, &model).map_err(refused)?;
    let text = "the model satisfies the table: its run fails\n";
    let json = Json::object([("satisfies", Json::Bool(true))]);
    Ok(Answer::new(text.to_string(), json))
}

pub fn decode(arguments: &Arguments) -> Result<Answer, Failure> {
    let (given, bound, model, name) = question(arguments)?;
    let refused = |refusal| Failure::refused_model(&name, &given.set, bound, refusal);
    let failing = given.set.decode(bound, &model).map_err(refused)?;
    let ran = given.set.replay_over(&failing.map, &failing.trace);
    let run = Run::new(&failing.trace, Some(ran.map_err(refused)?.end)).over(&failing.map);
    let answer = Answer::new(run.text(), Json::Object(run.json()));
    Ok(answer
        .with_file(arguments, "-o", failing.trace)
        .with_file(arguments, "-m", failing.map))
}

// ---- traces alone

fn trace_of(file: &OsStr) -> Result<(Vec<u8>, Run), Failure> {
    let trace = files::read(file, MAX_STEPS * STEP_BYTES)?;
    let steps = steps::accept(&files::name(file), &trace)?;
    let end = steps::known_end(&steps);
    Ok((trace, Run::of(steps, end)))
}

pub fn show(arguments: &Arguments) -> Result<Answer, Failure> {
    let (_, run) = trace_of(&arguments.inputs[0])?;
    Ok(Answer::new(run.text(), Json::Object(run.json())))
}

pub fn draw(arguments: &Arguments) -> Result<Answer, Failure> {
    let Some(file) = arguments.option("-o") else {
        return Err(Failure::bad_input("draw needs -o FILE.svg"));
    };
    let (trace, run) = trace_of(&arguments.inputs[0])?;
    let steps = counted(run.steps(), "step");
    let text = format!("{steps}, drawn in {}\n", shown(file));
    let json = Json::object([("steps", Json::from(run.steps()))]);
    let answer = Answer::new(text, json);
    Ok(answer.with_file(arguments, "-o", draw::svg(&trace).into_bytes()))
}
