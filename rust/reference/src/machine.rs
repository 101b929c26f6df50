//! The machine: its threads, the choices it permits, and one step with what it read and wrote.

use crate::Instruction::{self, *};
use crate::{Cell, End, Memory, Set, Statement};

#[derive(Clone, Copy, Debug, PartialEq, Eq, Hash)]
pub struct Thread {
    pub accu: u16,
    pub mem: u16,
    /// The store buffer: address, value, and whether it holds a store.
    pub adr: u16,
    pub val: u16,
    pub full: bool,
    pub pc: usize,
    pub halted: bool,
    /// The checkpoint at which the thread is marked. There is at most one: a thread marked at a
    /// checkpoint that is not open cannot execute, and the step after its opening clears the mark
    /// before a CHECK sets another.
    pub mark: Option<u16>,
}

impl Thread {
    /// "A fresh thread has accu, mem, adr, val and full all 0, and pc 0."
    pub fn fresh() -> Thread {
        Thread {
            accu: 0,
            mem: 0,
            adr: 0,
            val: 0,
            full: false,
            pc: 0,
            halted: false,
            mark: None,
        }
    }

    /// "A load of address a gives val if full = 1 and adr = a, else cell a."
    fn load(&self, memory: &Memory, address: u16) -> Result<Loaded, LacksCell> {
        if self.full && self.adr == address {
            return Ok(Loaded {
                address,
                word: self.val,
                forwarded: true,
            });
        }
        read_cell(memory, address)
    }

    /// The effect of a memory word. All reads come before the first change, so that a lacking cell
    /// leaves the thread as it was.
    fn access(&mut self, memory: &Memory, statement: Statement) -> Result<Report, LacksCell> {
        let mut report = Report::default();
        let mut address = statement.argument;
        if statement.indirect {
            let loaded = self.load(memory, address)?;
            report.address_word = Some(loaded);
            address = loaded.word;
        }
        match statement.instruction {
            Store => {
                self.adr = address;
                self.val = self.accu;
                self.full = true;
            }
            Cas => {
                // The buffer is empty here; the rule speaks of the cell.
                let cell = read_cell(memory, address)?;
                report.data_word = Some(cell);
                report.written = self.compare_and_swap(cell);
            }
            instruction => {
                let loaded = self.load(memory, address)?;
                report.data_word = Some(loaded);
                self.take(instruction, loaded.word);
            }
        }
        Ok(report)
    }

    /// "If the cell equals mem, cell = accu and accu = 1; else accu = 0."
    fn compare_and_swap(&mut self, cell: Loaded) -> Option<Cell> {
        if cell.word != self.mem {
            self.accu = 0;
            return None;
        }
        let written = Cell {
            address: cell.address,
            value: self.accu,
        };
        self.accu = 1;
        Some(written)
    }

    /// The effect on accu and mem of a word that was loaded, or of the argument in the I forms.
    /// Sums, differences and products keep the low 16 bits.
    fn take(&mut self, instruction: Instruction, word: u16) {
        match instruction {
            Load => self.accu = word,
            Mem => {
                self.mem = word;
                self.accu = word;
            }
            Add | Addi => self.accu = self.accu.wrapping_add(word),
            Sub | Subi => self.accu = self.accu.wrapping_sub(word),
            Mul | Muli => self.accu = self.accu.wrapping_mul(word),
            _ => {}
        }
    }
}

fn read_cell(memory: &Memory, address: u16) -> Result<Loaded, LacksCell> {
    let word = memory.read(address).ok_or(LacksCell(address))?;
    Ok(Loaded {
        address,
        word,
        forwarded: false,
    })
}

/// A step is one thread executing or one thread flushing.
#[derive(Clone, Copy, Debug, PartialEq, Eq)]
pub enum Choice {
    Execute(usize),
    Flush(usize),
}

impl Choice {
    /// "t executes thread t, 128 + t flushes it." A byte that names no thread gives a choice that
    /// is never permitted.
    pub fn from_schedule(byte: u8) -> Choice {
        match byte {
            0..=127 => Choice::Execute(usize::from(byte)),
            128..=255 => Choice::Flush(usize::from(byte - 128)),
        }
    }

    /// The schedule byte of a choice of one of the machine's threads.
    pub fn schedule_byte(self) -> u8 {
        match self {
            Choice::Execute(thread) => thread as u8,
            Choice::Flush(thread) => 128 + thread as u8,
        }
    }

    pub fn thread(self) -> usize {
        match self {
            Choice::Execute(thread) | Choice::Flush(thread) => thread,
        }
    }
}

/// A word that a step loaded, and whether the thread's own buffer gave it.
#[derive(Clone, Copy, Debug, PartialEq, Eq)]
pub struct Loaded {
    pub address: u16,
    pub word: u16,
    pub forwarded: bool,
}

/// What a step did beside the next state.
#[derive(Clone, Copy, Debug, Default, PartialEq, Eq)]
pub struct Report {
    /// The load of an indirect argument.
    pub address_word: Option<Loaded>,
    /// The load at the address, or the cell that a CAS compares.
    pub data_word: Option<Loaded>,
    /// The cell written by a flush or by a CAS that matched.
    pub written: Option<Cell>,
    /// The checkpoint whose CHECK was executed.
    pub checkpoint: Option<u16>,
}

/// The step would read this cell, which is neither mapped nor written.
#[derive(Clone, Copy, Debug, PartialEq, Eq)]
pub struct LacksCell(pub u16);

#[derive(Clone, Debug)]
pub struct Machine<'a> {
    set: &'a Set,
    threads: Vec<Thread>,
    memory: Memory,
    /// Set when the machine has ended.
    code: Option<u16>,
    /// The cell that the previous step wrote.
    written: Option<Cell>,
}

impl<'a> Machine<'a> {
    /// Fresh threads, no marks and a first memory.
    pub fn fresh(set: &'a Set, map: Vec<Cell>) -> Machine<'a> {
        Machine::start(set, Memory::first(map))
    }

    pub fn start(set: &'a Set, memory: Memory) -> Machine<'a> {
        Machine {
            set,
            threads: vec![Thread::fresh(); set.threads.len()],
            memory,
            code: None,
            written: None,
        }
    }

    /// The same over a first memory of all 65,536 cells, by address: no cell is ever lacking.
    pub fn over(set: &'a Set, first: &[u16]) -> Machine<'a> {
        let cell = |(address, &value): (u16, &u16)| Cell { address, value };
        Machine::fresh(set, (0..=u16::MAX).zip(first).map(cell).collect())
    }

    pub fn threads(&self) -> &[Thread] {
        &self.threads
    }

    pub fn memory(&self) -> &Memory {
        &self.memory
    }

    pub fn written(&self) -> Option<Cell> {
        self.written
    }

    /// The statement at the thread's pc. A thread's last statement never goes on to the next pc, so
    /// there always is one.
    pub fn statement(&self, thread: usize) -> Statement {
        self.set.threads[thread][self.threads[thread].pc]
    }

    pub fn end(&self) -> End {
        match self.code {
            Some(code) => End::Code(code),
            None if self.choices().any(|choice| self.permitted(choice)) => End::Open,
            None => End::Stuck,
        }
    }

    /// Executes by thread, then flushes by thread.
    pub fn choices(&self) -> impl Iterator<Item = Choice> {
        let count = self.threads.len();
        let executes = (0..count).map(Choice::Execute);
        executes.chain((0..count).map(Choice::Flush))
    }

    pub fn permitted(&self, choice: Choice) -> bool {
        let Some(thread) = self.threads.get(choice.thread()) else {
            return false;
        };
        if self.code.is_some() {
            return false;
        }
        match choice {
            Choice::Flush(_) => thread.full,
            Choice::Execute(number) => {
                let held_up =
                    thread.full && self.statement(number).instruction.needs_empty_buffer();
                !(thread.halted || held_up || self.waits(number))
            }
        }
    }

    /// A marked thread waits until its checkpoint opens.
    pub fn waits(&self, thread: usize) -> bool {
        self.threads[thread]
            .mark
            .is_some_and(|number| !self.is_open(number))
    }

    /// "A checkpoint opens when every thread containing that CHECK is marked."
    fn is_open(&self, number: u16) -> bool {
        self.set
            .checkpoints
            .iter()
            .find(|checkpoint| checkpoint.number == number)
            .is_some_and(|checkpoint| {
                checkpoint
                    .threads
                    .iter()
                    .all(|&thread| self.threads[thread].mark == Some(number))
            })
    }

    /// The checkpoint that is open. Two are never open at once, since a step sets at most one mark.
    pub fn open_checkpoint(&self) -> Option<u16> {
        self.threads
            .iter()
            .filter_map(|thread| thread.mark)
            .find(|&number| self.is_open(number))
    }

    /// Takes a permitted choice. A step that would read a cell that is not known is not taken.
    pub fn step(&mut self, choice: Choice) -> Result<Report, LacksCell> {
        let open = self.open_checkpoint();
        let report = match choice {
            Choice::Execute(thread) => self.execute(thread)?,
            Choice::Flush(thread) => self.flush(thread),
        };
        if let Some(cell) = report.written {
            self.memory.write(cell);
        }
        self.written = report.written;
        // A CHECK's mark is set after the clearing, that of the open checkpoint too.
        if open.is_some() {
            self.clear_marks(open);
        }
        if report.checkpoint.is_some() {
            self.threads[choice.thread()].mark = report.checkpoint;
        }
        Ok(report)
    }

    fn clear_marks(&mut self, open: Option<u16>) {
        for thread in &mut self.threads {
            if thread.mark == open {
                thread.mark = None;
            }
        }
    }

    /// "It writes val at adr and clears full. adr and val stay."
    fn flush(&mut self, number: usize) -> Report {
        let thread = &mut self.threads[number];
        thread.full = false;
        Report {
            written: Some(Cell {
                address: thread.adr,
                value: thread.val,
            }),
            ..Report::default()
        }
    }

    fn execute(&mut self, number: usize) -> Result<Report, LacksCell> {
        let statement = self.statement(number);
        let Statement {
            instruction,
            argument,
            ..
        } = statement;
        let thread = &mut self.threads[number];
        let mut report = Report::default();
        if instruction.is_memory() {
            report = thread.access(&self.memory, statement)?;
        }
        match instruction {
            Addi | Subi | Muli => thread.take(instruction, argument),
            Check => report.checkpoint = Some(argument),
            Halt => thread.halted = true,
            Exit => self.code = Some(argument),
            // FENCE and jumps change no register but the pc.
            _ => {}
        }
        if instruction.jumps_at(thread.accu) {
            thread.pc = usize::from(argument);
        } else if !matches!(instruction, Halt | Exit) {
            thread.pc += 1;
        }
        // "When all threads have halted the machine ends, its code 0."
        if instruction == Halt && self.threads.iter().all(|thread| thread.halted) {
            self.code = Some(0);
        }
        Ok(report)
    }
}
