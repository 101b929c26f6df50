//! A run as it is shown: its steps, its end, and the map that it ran over where that is told.

use crate::json::Json;
use crate::set::{map_json, map_text};
use crate::steps;
use deepchalk::End;
use reference::records::MAX_GIVEN_MAP;
use reference::trace::{Step, STEP_BYTES};
use reference::{accept_map, Cell};

pub struct Run {
    steps: Vec<Step>,
    end: Option<End>,
    map: Option<Vec<Cell>>,
}

impl Run {
    /// Of a trace that the library wrote.
    pub fn new(trace: &[u8], end: Option<End>) -> Run {
        let records = trace.chunks_exact(STEP_BYTES);
        let steps = records.map(|record| record.try_into().ok().and_then(Step::from_bytes));
        let steps: Option<Vec<Step>> = steps.collect();
        Run::of(steps.expect("the library writes trace steps"), end)
    }

    pub fn of(steps: Vec<Step>, end: Option<End>) -> Run {
        let map = None;
        Run { steps, end, map }
    }

    /// With a map that the library wrote.
    pub fn over(self, map: &[u8]) -> Run {
        let map = accept_map(map, MAX_GIVEN_MAP).expect("the library writes map cells");
        let map = Some(map);
        Run { map, ..self }
    }

    pub fn steps(&self) -> u64 {
        self.steps.len() as u64
    }

    /// The listing's lines, then the map's.
    pub fn text(&self) -> String {
        let mut text = steps::lines(&self.steps);
        text.extend(self.end.map(|end| format!("{end}\n")));
        text.extend(
            self.map
                .iter()
                .map(|map| format!("\nmap\n{}", map_text(map))),
        );
        text
    }

    pub fn json(&self) -> Vec<(&'static str, Json)> {
        let mut members = vec![("steps", Json::from(self.steps()))];
        members.extend(steps::end_json(self.end));
        members.push(("trace", steps::json(&self.steps)));
        members.extend(self.map.iter().map(|map| ("map", map_json(map))));
        members
    }
}
