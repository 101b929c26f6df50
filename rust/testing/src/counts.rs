//! How often the compared calls reached each answer and each event of the machine, so that a test
//! can see that its inputs leave nothing out.

use reference::records::{Set, MAX_GIVEN_MAP};
use reference::trace::MAX_STEPS;
use reference::{
    accept_map, accept_set, Choice, End, Instruction, Machine, Ran, Refusal, Statement,
};

#[derive(Clone, Default)]
pub struct Answers {
    refusals: [usize; 18],
    codes_0: usize,
    other_codes: usize,
    stuck: usize,
    open: usize,
    of_0_steps: usize,
    of_64_steps: usize,
}

impl Answers {
    pub fn add(&mut self, answer: Result<Ran, Refusal>) {
        match answer {
            Err(refusal) => self.refusals[usize::from(refusal.number)] += 1,
            Ok(ran) => {
                match ran.end {
                    End::Code(0) => self.codes_0 += 1,
                    End::Code(_) => self.other_codes += 1,
                    End::Stuck => self.stuck += 1,
                    End::Open => self.open += 1,
                }
                match usize::from(ran.steps) {
                    0 => self.of_0_steps += 1,
                    MAX_STEPS => self.of_64_steps += 1,
                    _ => {}
                }
            }
        }
    }

    pub fn total(&self) -> usize {
        let refused: usize = self.refusals.iter().sum();
        refused + self.codes_0 + self.other_codes + self.stuck + self.open
    }

    fn rows(&self, call: &str, refusals: &[usize]) -> Vec<(String, usize)> {
        let mut rows: Vec<(String, usize)> = refusals
            .iter()
            .map(|&number| (format!("{call}: refusal {number}"), self.refusals[number]))
            .collect();
        for (what, count) in [
            ("end by code 0", self.codes_0),
            ("end by another code", self.other_codes),
            ("stuck", self.stuck),
            ("open", self.open),
            ("runs of 0 steps", self.of_0_steps),
            ("runs of 64 steps", self.of_64_steps),
        ] {
            rows.push((format!("{call}: {what}"), count));
        }
        rows
    }
}

/// Events of the machine in the simulated runs.
#[derive(Clone, Default)]
struct Events {
    executed: [usize; 20],
    flushes: usize,
    indirect: usize,
    forwarded_loads: usize,
    forwarded_address_words: usize,
    cas_hits: usize,
    cas_misses: usize,
    jumps_to_itself: usize,
    conditional_jumps_to_next: usize,
    openings: usize,
    shared_openings: usize,
    checks_in_clearing_step: usize,
    waits_after_clearing_step: usize,
    flushes_while_waiting: usize,
    flushes_in_clearing_step: usize,
    exits_with_full_buffer: usize,
}

#[derive(Clone, Default)]
pub struct Counts {
    pub simulate: Answers,
    pub replay: Answers,
    events: Events,
}

impl Counts {
    /// Runs the schedule as far as it goes and counts what happens.
    pub fn watch(&mut self, set: &[u8], map: &[u8], schedule: &[u8]) {
        let (Ok(set), Ok(map)) = (accept_set(set), accept_map(map, MAX_GIVEN_MAP)) else {
            return;
        };
        let mut machine = Machine::fresh(&set, map);
        for &byte in schedule.iter().take(MAX_STEPS) {
            let choice = Choice::from_schedule(byte);
            if !machine.permitted(choice) {
                return;
            }
            let before = machine.clone();
            let Ok(report) = machine.step(choice) else {
                return;
            };
            let forwarded = |loaded: Option<reference::machine::Loaded>| {
                usize::from(loaded.is_some_and(|loaded| loaded.forwarded))
            };
            self.events.forwarded_loads += forwarded(report.data_word);
            self.events.forwarded_address_words += forwarded(report.address_word);
            match choice {
                Choice::Execute(thread) => {
                    let hit = report.written.is_some();
                    self.events
                        .add_execute(&before, thread, hit, machine.waits(thread));
                }
                Choice::Flush(thread) => {
                    self.events.flushes += 1;
                    self.events.flushes_while_waiting += usize::from(before.waits(thread));
                    let clears = before.open_checkpoint().is_some();
                    self.events.flushes_in_clearing_step += usize::from(clears);
                }
            }
            self.events.add_opening(&set, machine.open_checkpoint());
        }
    }

    /// Each row that a full run of random inputs must reach.
    pub fn rows(&self) -> Vec<(String, usize)> {
        let mut rows = self.simulate.rows("simulate", &[9, 11, 12, 14, 17]);
        rows.extend(self.replay.rows("replay", &[9, 12, 13, 14, 17]));
        rows.extend(self.events.rows());
        rows
    }

    pub fn table(&self) -> String {
        let lines: Vec<String> = self
            .rows()
            .iter()
            .map(|(what, count)| format!("{count:>10}  {what}\n"))
            .collect();
        lines.concat()
    }
}

impl Events {
    fn add_execute(&mut self, before: &Machine, thread: usize, hit: bool, waits: bool) {
        let registers = before.threads()[thread];
        let Statement {
            instruction,
            indirect,
            argument,
        } = before.statement(thread);
        self.executed[usize::from(instruction.number())] += 1;
        self.indirect += usize::from(indirect);
        match instruction {
            Instruction::Cas if hit => self.cas_hits += 1,
            Instruction::Cas => self.cas_misses += 1,
            Instruction::Exit if registers.full => self.exits_with_full_buffer += 1,
            Instruction::Check if before.open_checkpoint() == Some(argument) => {
                self.checks_in_clearing_step += 1;
                self.waits_after_clearing_step += usize::from(waits);
            }
            _ if instruction.is_jump() => {
                let target = usize::from(argument);
                self.jumps_to_itself += usize::from(target == registers.pc);
                let to_next = instruction != Instruction::Jmp && target == registers.pc + 1;
                self.conditional_jumps_to_next += usize::from(to_next);
            }
            _ => {}
        }
    }

    fn add_opening(&mut self, set: &Set, open: Option<u16>) {
        for checkpoint in &set.checkpoints {
            if open == Some(checkpoint.number) {
                self.openings += 1;
                self.shared_openings += usize::from(checkpoint.threads.len() > 1);
            }
        }
    }

    fn rows(&self) -> Vec<(String, usize)> {
        let mut rows: Vec<(String, usize)> = Instruction::ALL
            .iter()
            .map(|instruction| {
                let count = self.executed[usize::from(instruction.number())];
                (format!("steps: {}", instruction.word()), count)
            })
            .collect();
        for (what, count) in [
            ("flush", self.flushes),
            ("indirect argument", self.indirect),
            ("forwarded load", self.forwarded_loads),
            ("forwarded address word", self.forwarded_address_words),
            ("CAS that matches", self.cas_hits),
            ("CAS that does not match", self.cas_misses),
            ("jump to itself", self.jumps_to_itself),
            (
                "conditional jump to the next statement",
                self.conditional_jumps_to_next,
            ),
            ("checkpoint opens", self.openings),
            ("checkpoint of several threads opens", self.shared_openings),
            (
                "CHECK of the open checkpoint in the clearing step",
                self.checks_in_clearing_step,
            ),
            (
                "such a CHECK, and the thread then waits",
                self.waits_after_clearing_step,
            ),
            ("flush while waiting", self.flushes_while_waiting),
            ("flush in the clearing step", self.flushes_in_clearing_step),
            ("EXIT with a full buffer", self.exits_with_full_buffer),
        ] {
            rows.push((format!("steps: {what}"), count));
        }
        rows
    }
}
