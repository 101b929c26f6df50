//! A set with its map, and the calls on it with owned answers.

use crate::{
    calls, Ran, Refusal, CELL_BYTES, FORMULA_BYTES, MAP_ROOM, MAX_SET_MAP, MAX_STATEMENTS,
    MAX_STEPS, STATEMENT_BYTES, STEP_BYTES, WORK_BYTES,
};

/// An accepted set with its map, as records.
#[derive(Clone, Debug, PartialEq, Eq)]
pub struct Set {
    statements: Vec<u8>,
    map: Vec<u8>,
}

/// What a record of a set's table belongs to (docs/TABLE.md).
#[derive(Clone, Copy, Debug, PartialEq, Eq)]
pub enum Part {
    /// The start values.
    Start,
    /// What says that first memory agrees with the map, in the cell at this address.
    Map { address: u16 },
    /// A step, from 0.
    Step(u32),
    /// The goal.
    Goal,
}

/// Records of a table for each cell of the map.
const CELL_RECORDS: u32 = 5;
/// Records of a table from the last step on, the goal the last of them.
const GOAL_RECORDS: u32 = 3;

/// What a model decodes to: the trace of its run, 24 bytes a step, and the map that the trace replays
/// over, 4 bytes a cell.
#[derive(Clone, Debug, PartialEq, Eq)]
pub struct FailingRun {
    pub trace: Vec<u8>,
    pub map: Vec<u8>,
}

impl Set {
    /// Reads a set text. Refusals 1 to 8.
    pub fn read(text: &[u8]) -> Result<Set, Refusal> {
        let mut statements = vec![0; MAX_STATEMENTS * STATEMENT_BYTES];
        let mut map = vec![0; MAX_SET_MAP * CELL_BYTES];
        let read = calls::read(text, &mut statements, &mut map)?;
        statements.truncate(usize::from(read.statements) * STATEMENT_BYTES);
        map.truncate(usize::from(read.cells) * CELL_BYTES);
        Ok(Set { statements, map })
    }

    /// From records, as a file keeps them. Refusal 9.
    pub fn from_records(statements: Vec<u8>, map: Vec<u8>) -> Result<Set, Refusal> {
        // Any bound from 1 to 64 makes this call a check of the records.
        calls::table_size(&statements, &map, 1)?;
        Ok(Set { statements, map })
    }

    /// The statement records, 8 bytes each.
    pub fn statements(&self) -> &[u8] {
        &self.statements
    }

    /// The map records, 4 bytes each.
    pub fn map(&self) -> &[u8] {
        &self.map
    }

    /// Runs the schedule over the set's map: its trace, the step count and the end. Refusals 12, 14
    /// and 17.
    pub fn simulate(&self, schedule: &[u8]) -> Result<(Vec<u8>, Ran), Refusal> {
        self.simulate_over(&self.map, schedule)
    }

    /// The same over another map, of at most 256 cells, which alone is read. Refusal 9 too.
    pub fn simulate_over(&self, map: &[u8], schedule: &[u8]) -> Result<(Vec<u8>, Ran), Refusal> {
        // A longer schedule is refused whatever the room.
        let mut trace = vec![0; schedule.len().min(MAX_STEPS) * STEP_BYTES];
        let ran = calls::simulate(&self.statements, map, schedule, &mut trace)?;
        Ok((trace, ran))
    }

    /// Compares the trace with the run that its choices make over the set's map. Refusals 12, 13, 14
    /// and 17.
    pub fn replay(&self, trace: &[u8]) -> Result<Ran, Refusal> {
        self.replay_over(&self.map, trace)
    }

    /// The same over another map, of at most 256 cells, which alone is read. Refusal 9 too.
    pub fn replay_over(&self, map: &[u8], trace: &[u8]) -> Result<Ran, Refusal> {
        calls::replay(&self.statements, map, trace)
    }

    /// How many records the table for the bound has. Refusal 10.
    pub fn table_size(&self, bound: u64) -> Result<u32, Refusal> {
        calls::table_size(&self.statements, &self.map, bound)
    }

    /// The table for the bound, 16 bytes a record. Refusal 10.
    pub fn encode(&self, bound: u64) -> Result<Vec<u8>, Refusal> {
        let mut table = vec![0; self.table_size(bound)? as usize * FORMULA_BYTES];
        calls::encode(&self.statements, &self.map, bound, &mut table)?;
        Ok(table)
    }

    /// Whether the model satisfies the table for the bound. Refusals 10, 15 and 16.
    pub fn check(&self, bound: u64, model: &[u8]) -> Result<(), Refusal> {
        let mut work = self.work(bound)?;
        calls::check(&self.statements, &self.map, bound, model, &mut work)
    }

    /// The run that the model stands for. Refusals 10, 15 and 16.
    pub fn decode(&self, bound: u64, model: &[u8]) -> Result<FailingRun, Refusal> {
        let mut work = self.work(bound)?;
        let mut trace = vec![0; MAX_STEPS * STEP_BYTES];
        let mut map = vec![0; MAP_ROOM];
        let decoded = calls::decode(
            &self.statements,
            &self.map,
            bound,
            model,
            &mut work,
            &mut trace,
            &mut map,
        )?;
        trace.truncate(usize::from(decoded.steps) * STEP_BYTES);
        map.truncate(usize::from(decoded.cells) * CELL_BYTES);
        Ok(FailingRun { trace, map })
    }

    /// What a record of the table for the bound belongs to, such as the one that a refusal 16 names; none
    /// where the table ends before it. Refusal 10.
    pub fn part_of(&self, bound: u64, record: u32) -> Result<Option<Part>, Refusal> {
        let records = self.table_size(bound)?;
        let goal = records - GOAL_RECORDS;
        // A table for one step more has one step's records more.
        let step = self.table_size(2)? - self.table_size(1)?;
        let steps = goal - bound as u32 * step;
        let cells = self.map.chunks_exact(CELL_BYTES);
        let map = steps - CELL_RECORDS * cells.len() as u32;
        Ok(if record < map {
            Some(Part::Start)
        } else if record < steps {
            let cell = (record - map) / CELL_RECORDS;
            let mut addresses = cells.map(|cell| u16::from_le_bytes([cell[0], cell[1]]));
            addresses
                .nth(cell as usize)
                .map(|address| Part::Map { address })
        } else if record < goal {
            Some(Part::Step((record - steps) / step))
        } else {
            (record < records).then_some(Part::Goal)
        })
    }

    /// Work memory for the table.
    fn work(&self, bound: u64) -> Result<Vec<u8>, Refusal> {
        Ok(vec![0; self.table_size(bound)? as usize * WORK_BYTES])
    }
}
