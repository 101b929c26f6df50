//! The picture put together: lanes, rows, stores and arrows.

use super::elements::{escaped, width, Elements, FONT};
use super::labels::{self, NOT_FLUSHED, NO_STEP};
use super::layout::{baseline, middle, top, Lane, Layout, ROW};
use super::legend;
use super::run::{Row, Run};

pub struct Picture {
    run: Run,
    layout: Layout,
    elements: Elements,
}

const FONTS: &str = "ui-monospace, 'DejaVu Sans Mono', Menlo, Consolas, monospace";
const BOLD: &str = r#" font-weight="bold""#;
const END: &str = r#" text-anchor="end""#;
pub const HEADING: &str = r##" font-size="10.5" fill="#444""##;
pub const HEADING_END: &str = r##" font-size="10.5" fill="#444" text-anchor="end""##;
const IN_BUFFER: &str = r#" font-size="10.5""#;
const ITALIC: &str = r#" font-size="10.5" font-style="italic""#;
const RULE: &str = r##" stroke="#ddd" stroke-width="1""##;
const LANE: &str = r##" stroke="#888" stroke-width="1""##;
const MEMORY: &str = r#" stroke="black" stroke-width="2.5""#;
const EXIT: &str = r##" rx="4" fill="#fff1c2" stroke="black" stroke-width="2""##;
pub const STORE: &str = r##" rx="3" fill="#dde7f3" stroke="#234" stroke-width="1.2""##;

impl Picture {
    pub fn new(run: Run) -> Picture {
        let layout = Layout::new(run.threads.len(), &run.widths());
        Picture {
            run,
            layout,
            elements: Elements::default(),
        }
    }

    /// Later elements lie on earlier ones, so that words come last.
    pub fn svg(mut self) -> String {
        let steps = self.run.rows.len();
        self.exit();
        self.rules();
        self.stores();
        for at in 0..steps {
            self.arrows(at);
        }
        self.headings();
        for at in 0..steps {
            self.words(at);
        }
        // Below the last step it is said which stores are not flushed.
        let rows = steps + usize::from(self.run.leaves_stores());
        let (right, bottom) = legend::draw(&self.run, &mut self.elements, top(rows) + 16.0);
        self.document(right.max(self.layout.right), bottom)
    }

    /// A page narrower than the picture, on screen or paper, shows all of it smaller.
    fn document(&self, width: f64, height: f64) -> String {
        let size = format!(r#"width="{width:.0}" height="{height:.0}""#);
        let view = format!(r#"viewBox="0 0 {width:.0} {height:.0}""#);
        let namespace = "http://www.w3.org/2000/svg";
        let title = escaped(&self.run.title());
        let description = escaped(&self.run.description());
        format!(
            r#"<svg xmlns="{namespace}" role="img" {size} {view} style="max-width:100%;height:auto">
<title>{title}</title>
<desc>{description}</desc>
<rect width="100%" height="100%" fill="white"/>
<g font-family="{FONTS}" font-size="{FONT}" fill="black">
{}</g>
</svg>
"#,
            self.elements.markup,
        )
    }

    // ---- lanes

    fn exit(&mut self) {
        if self.run.exit_code().is_some() {
            let top = top(self.run.rows.len() - 1);
            let (from, to) = ((2.0, top + 1.0), (self.layout.right - 1.0, top + ROW - 1.0));
            self.elements.rectangle(from, to, EXIT);
        }
    }

    fn rules(&mut self) {
        let Layout {
            lanes,
            memory,
            right,
            ..
        } = &self.layout;
        let steps = self.run.rows.len();
        // The last step has a frame if it is an EXIT.
        let framed = self.run.exit_code().map_or(0, |_| 2);
        for at in 0..(steps + 1).saturating_sub(framed) {
            self.elements.line((0.0, top(at)), (*right, top(at)), RULE);
        }
        let bottom = top(steps);
        for lane in lanes {
            self.elements
                .line((lane.left, 4.0), (lane.left, bottom), LANE);
        }
        self.elements
            .line((*memory, 4.0), (*memory, bottom), MEMORY);
    }

    fn headings(&mut self) {
        let (upper, lower) = (20.0, 38.0);
        let Layout {
            lanes,
            number,
            memory,
            ..
        } = &self.layout;
        let elements = &mut self.elements;
        elements.text(*number, lower, HEADING_END, "step");
        for (lane, thread) in lanes.iter().zip(&self.run.threads) {
            elements.text(lane.left + 10.0, upper, BOLD, &format!("thread {thread}"));
            elements.text(lane.accu, lower, HEADING_END, "accu");
            if self.run.shows_mem() {
                elements.text(lane.mem, lower, HEADING_END, "mem");
            }
            if !self.run.waiting.is_empty() {
                elements.text(lane.buffer.0, lower, HEADING, "buffer");
            }
        }
        elements.text(memory + 10.0, upper, BOLD, "memory");
    }

    // ---- rows

    fn words(&mut self, at: usize) {
        let Layout {
            lanes,
            number,
            memory,
            ..
        } = &self.layout;
        let (elements, y) = (&mut self.elements, baseline(at));
        elements.text(*number, y, END, &at.to_string());
        let Some(row) = &self.run.rows[at] else {
            elements.text(memory + 10.0, y, "", NO_STEP);
            return;
        };
        let lane = &lanes[row.lane];
        elements.text(lane.accu, y, END, &row.step.accu.to_string());
        if self.run.shows_mem() {
            elements.text(lane.mem, y, END, &row.step.mem.to_string());
        }
        elements.text(lane.statement, y, BOLD, &row.statement);
        if let Some(forwarded) = &row.forwarded {
            elements.text(lane.buffer.0 + 5.0, y, ITALIC, forwarded);
        }
        if !row.memory.is_empty() {
            let ends = labels::exit_code(&row.step).is_some();
            let style = if ends || row.effect.written.is_some() {
                BOLD
            } else {
                ""
            };
            elements.text(memory + 10.0, y, style, &row.memory);
        }
    }

    fn arrows(&mut self, at: usize) {
        let Some(row) = &self.run.rows[at] else {
            return;
        };
        let (lane, memory, y) = (&self.layout.lanes[row.lane], self.layout.memory, middle(at));
        let elements = &mut self.elements;
        let statement_end = lane.statement + width(&row.statement, FONT) + 4.0;
        if row.forwarded.is_some() {
            elements.read_arrow(lane.buffer.0, statement_end, y);
        }
        if row.effect.stored.is_some() {
            elements.write_arrow(statement_end, lane.buffer.0, y);
        }
        let reads = labels::reads(&row.effect).next().is_some();
        let writes = row.effect.written.is_some();
        // Both stand in the row of an indirect CAS that matched.
        let apart = if reads && writes { 5.0 } else { 0.0 };
        if reads {
            elements.read_arrow(memory, read_end(lane, row, statement_end), y - apart);
        }
        if writes {
            let flushes = row.step.statement.is_none();
            let start = if flushes {
                lane.buffer.1
            } else {
                statement_end
            };
            elements.write_arrow(start, memory, y + apart);
        }
        for &store in &row.missed {
            let lane = self.run.lane_of(self.run.waiting[store].thread);
            let (left, right) = self.layout.lanes[lane].buffer;
            elements.diamond((left + right) / 2.0, y);
        }
    }

    // ---- stores

    /// A store waits in its thread's lane from the row of the STORE to that of its flush.
    fn stores(&mut self) {
        let steps = self.run.rows.len();
        for store in &self.run.waiting {
            let (left, right) = self.layout.lanes[self.run.lane_of(store.thread)].buffer;
            let from = top(store.from) + 3.0;
            match store.until {
                Some(until) => {
                    let to = (right, top(until) + ROW - 3.0);
                    self.elements.rectangle((left, from), to, STORE);
                }
                None => {
                    let bottom = top(steps);
                    let open = [(left, bottom), (left, from), (right, from), (right, bottom)];
                    self.elements.path(&open, STORE);
                    self.elements
                        .text(left, baseline(steps), ITALIC, NOT_FLUSHED);
                }
            }
            let words = labels::store(store.store);
            self.elements
                .text(left + 5.0, baseline(store.from), IN_BUFFER, &words);
        }
    }
}

/// An arrow from memory ends at the statement, or before the buffer where that has words in the row.
fn read_end(lane: &Lane, row: &Row, statement_end: f64) -> f64 {
    if row.effect.stored.is_some() || row.forwarded.is_some() {
        lane.buffer.1
    } else {
        statement_end
    }
}
