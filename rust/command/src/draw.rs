//! A run as a picture: SVG from a trace. Time goes downwards, a row for each step; each thread has a
//! lane with its registers, its statements and its store buffer, and memory has a lane at the right.

mod buffers;
mod effects;
mod elements;
mod labels;
mod layout;
mod legend;
mod picture;
mod run;
#[cfg(test)]
mod tests;

use picture::Picture;
use reference::trace::{Step, STEP_BYTES};
use run::Run;

/// The picture of a trace's whole steps. It shows what the trace alone shows: a trace has neither the
/// set nor the map.
pub fn svg(trace: &[u8]) -> String {
    let records = trace.chunks_exact(STEP_BYTES);
    let step = |record: &[u8]| Step::from_bytes(record.try_into().expect("a whole record"));
    let steps: Vec<Option<Step>> = records.map(step).collect();
    Picture::new(Run::new(&steps)).svg()
}
