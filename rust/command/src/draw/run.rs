//! The run as text: a row for each step with its words, the stores that wait, and how wide the columns
//! must be.

use super::buffers::{missed, waiting, Waiting};
use super::effects::{effects, Effect};
use super::elements::{width, FONT, SMALL};
use super::labels::{self, NOT_FLUSHED, NO_STEP};
use super::layout::Widths;
use reference::trace::Step;

/// One step's row.
pub struct Row {
    /// The index of its thread's lane.
    pub lane: usize,
    pub step: Step,
    pub effect: Effect,
    pub statement: String,
    pub memory: String,
    pub forwarded: Option<String>,
    /// The indexes of the stores that its loads miss.
    pub missed: Vec<usize>,
}

pub struct Run {
    /// Those that make a step, ascending.
    pub threads: Vec<u8>,
    /// None for a record that is no trace step.
    pub rows: Vec<Option<Row>>,
    pub waiting: Vec<Waiting>,
}

impl Run {
    pub fn new(steps: &[Option<Step>]) -> Run {
        let mut threads: Vec<u8> = steps.iter().flatten().map(|step| step.thread).collect();
        threads.sort_unstable();
        threads.dedup();
        let effects = effects(steps);
        let waiting = waiting(steps, &effects);
        let mut run = Run {
            threads,
            rows: Vec::new(),
            waiting,
        };
        for (at, (step, effect)) in steps.iter().zip(effects).enumerate() {
            let row = step.map(|step| run.row(at, step, effect));
            run.rows.push(row);
        }
        run
    }

    fn row(&self, at: usize, step: Step, effect: Effect) -> Row {
        let missed = labels::reads(&effect)
            .flat_map(|loaded| missed(&self.waiting, at, step.thread, loaded.address))
            .collect();
        Row {
            lane: self.lane_of(step.thread),
            step,
            effect,
            statement: labels::statement(&step),
            memory: labels::memory(&step, &effect, at, &self.waiting),
            forwarded: labels::forwarded(&effect),
            missed,
        }
    }

    pub fn lane_of(&self, thread: u8) -> usize {
        self.threads.partition_point(|&lower| lower < thread)
    }

    pub fn steps(&self) -> impl Iterator<Item = &Row> {
        self.rows.iter().flatten()
    }

    /// The code, if the last step is an EXIT.
    pub fn exit_code(&self) -> Option<u16> {
        let last = self.rows.last()?.as_ref()?;
        labels::exit_code(&last.step)
    }

    pub fn shows_mem(&self) -> bool {
        self.steps().any(|row| row.step.mem != 0)
    }

    pub fn leaves_stores(&self) -> bool {
        self.waiting.iter().any(|store| store.until.is_none())
    }

    // ---- for those who do not see it

    pub fn title(&self) -> String {
        let count = |count: usize, word: &str| match count {
            1 => format!("1 {word}"),
            _ => format!("{count} {word}s"),
        };
        let steps = count(self.rows.len(), "step");
        let threads = count(self.threads.len(), "thread");
        let exits = self
            .exit_code()
            .map(|code| format!(" that exits with {code}"));
        format!("Run of {steps} by {threads}{}", exits.unwrap_or_default())
    }

    pub fn description(&self) -> String {
        let sentence = |(at, row): (usize, &Option<Row>)| match row {
            None => format!("Step {at}: {NO_STEP}."),
            Some(row) => {
                let mut parts = vec![format!("thread {} {}", row.step.thread, row.statement)];
                parts.extend(row.forwarded.clone());
                parts.extend((!row.memory.is_empty()).then(|| row.memory.clone()));
                format!("Step {at}: {}.", parts.join(", "))
            }
        };
        let sentences = self.rows.iter().enumerate().map(sentence);
        sentences.collect::<Vec<String>>().join("\n")
    }

    // ---- widths

    pub fn widths(&self) -> Widths {
        let accu = self.steps().map(|row| row.step.accu.to_string());
        let mem = self.steps().map(|row| row.step.mem.to_string());
        let statement = self.steps().map(|row| row.statement.clone());
        let memory = self.steps().map(|row| row.memory.clone());
        let stores = self.waiting.iter().map(|store| labels::store(store.store));
        let forwarded = self.steps().filter_map(|row| row.forwarded.clone());
        let left = self.leaves_stores().then(|| NOT_FLUSHED.to_string());
        Widths {
            accu: widest(accu, FONT).max(width("accu", SMALL)),
            mem: match self.shows_mem() {
                true => widest(mem, FONT).max(width("mem", SMALL)),
                false => 0.0,
            },
            statement: widest(statement, FONT),
            buffer: widest(stores.chain(forwarded).chain(left), SMALL),
            memory: widest(memory, FONT).max(width(NO_STEP, FONT)),
        }
    }
}

fn widest(texts: impl Iterator<Item = String>, size: f64) -> f64 {
    texts.map(|text| width(&text, size)).fold(0.0, f64::max)
}
