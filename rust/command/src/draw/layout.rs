//! Where columns and rows stand. Columns are as wide as the run's own widest text.

use super::elements::{width, FONT, SMALL};

pub const ROW: f64 = 22.0;
pub const HEAD: f64 = 46.0;
const GAP: f64 = 10.0;

/// The widest texts of a run, in pixels; 0 where a column has nothing to show.
pub struct Widths {
    pub accu: f64,
    pub mem: f64,
    pub statement: f64,
    pub buffer: f64,
    pub memory: f64,
}

/// The horizontal places of one thread's lane.
pub struct Lane {
    pub left: f64,
    /// Registers end here.
    pub accu: f64,
    pub mem: f64,
    /// Statements start here.
    pub statement: f64,
    pub buffer: (f64, f64),
    pub right: f64,
}

pub struct Layout {
    pub number: f64,
    pub lanes: Vec<Lane>,
    pub memory: f64,
    pub right: f64,
}

impl Layout {
    pub fn new(threads: usize, widths: &Widths) -> Layout {
        let number = GAP + width("step", SMALL);
        let mut left = number + GAP;
        let mut lanes = Vec::new();
        for _ in 0..threads {
            let lane = Lane::new(left, widths);
            left = lane.right;
            lanes.push(lane);
        }
        Layout {
            number,
            lanes,
            memory: left + GAP,
            right: left + 2.0 * GAP + widths.memory.max(width("memory", FONT)) + GAP,
        }
    }
}

impl Lane {
    fn new(left: f64, widths: &Widths) -> Lane {
        let after = |place: f64, width: f64| {
            if width > 0.0 {
                place + GAP + width
            } else {
                place
            }
        };
        let accu = after(left, widths.accu);
        let mem = after(accu, widths.mem);
        let statement = mem + GAP;
        let statement_end = statement + widths.statement;
        // Between statement and buffer there is room for an arrow.
        let buffer = statement_end + 2.2 * GAP;
        let (buffer, right) = if widths.buffer > 0.0 {
            let end = buffer + widths.buffer + GAP;
            ((buffer, end), end + GAP)
        } else {
            ((statement_end, statement_end), statement_end + GAP)
        };
        Lane {
            left,
            accu,
            mem,
            statement,
            buffer,
            right,
        }
    }
}

/// The top of a step's row.
pub fn top(step: usize) -> f64 {
    HEAD + step as f64 * ROW
}

pub fn middle(step: usize) -> f64 {
    top(step) + ROW / 2.0
}

/// Where the text of a row stands.
pub fn baseline(step: usize) -> f64 {
    top(step) + 15.0
}
