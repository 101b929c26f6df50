//! Trace steps from bytes, as the listing's lines and as JSON.

use crate::failure::Failure;
use crate::json::Json;
use crate::set::{cell_json, statement_json};
use deepchalk::{End, Refusal, MAX_STEPS};
use reference::listing::step_line;
use reference::records::MAX_THREADS;
use reference::trace::{Step, STEP_BYTES};
use reference::Instruction::Exit;

/// The steps of a trace that no set goes with. `about` names it.
pub fn accept(about: &str, trace: &[u8]) -> Result<Vec<Step>, Failure> {
    let records = trace.chunks_exact(STEP_BYTES);
    if !records.remainder().is_empty() || records.len() > MAX_STEPS {
        return Err(Failure::refused(about, Refusal::Length));
    }
    records
        .enumerate()
        .map(|(at, record)| {
            let step = record.try_into().ok().and_then(Step::from_bytes);
            step.filter(|step| usize::from(step.thread) < MAX_THREADS)
                .ok_or_else(|| Failure::bad_input(format!("{about}: step {at} is no trace step")))
        })
        .collect()
}

/// The end, where the last step tells it by itself.
pub fn known_end(steps: &[Step]) -> Option<End> {
    let last = steps.last()?.statement?;
    (last.instruction == Exit).then_some(End::Code(last.argument))
}

pub fn lines(steps: &[Step]) -> String {
    steps.iter().map(step_line).collect()
}

pub fn json(steps: &[Step]) -> Json {
    Json::list(steps.iter().map(step_json))
}

fn step_json(step: &Step) -> Json {
    let mut members = vec![
        ("thread", Json::from(step.thread)),
        ("pc", Json::from(step.pc)),
    ];
    members.extend(statement_json(step.statement));
    members.extend([
        ("accu", Json::from(step.accu)),
        ("mem", Json::from(step.mem)),
        ("adr", Json::from(step.adr)),
        ("val", Json::from(step.val)),
        ("full", Json::from(u8::from(step.full))),
        ("written", step.written.map_or(Json::Null, cell_json)),
    ]);
    Json::Object(members)
}

/// How a run ended: its kind, and the code where it has one.
pub fn end_json(end: Option<End>) -> [(&'static str, Json); 2] {
    let (kind, code) = match end {
        None => (Json::Null, Json::Null),
        Some(End::Code(code)) => (Json::from("code"), Json::from(code)),
        Some(End::Stuck) => (Json::from("stuck"), Json::Null),
        Some(End::Open) => (Json::from("open"), Json::Null),
    };
    [("end", kind), ("code", code)]
}
