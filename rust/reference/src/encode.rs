//! The second encoder: the table of a set, a map and a bound, record for record as docs/TABLE.md
//! has it.

use crate::formula::{operation::*, sort, Formula, FORMULA_BYTES};
use crate::records::{MAX_CHECKPOINTS, MAX_SET_MAP, MAX_STATEMENTS, MAX_THREADS};
use crate::Instruction::{self, *};
use crate::{accept_map, accept_set, Cell, Refusal, Set, Statement};
use std::slice::ChunksExactMut;

pub const MAX_BOUND: u64 = 64;

/// The number of records of the table.
pub fn table_size(set: &[u8], map: &[u8], bound: u64) -> Result<u32, Refusal> {
    let (set, map) = accepted(set, map, bound)?;
    Ok(records(&set, map.len(), bound as usize) as u32)
}

/// Writes the table to the front of `table` and gives the number of its records. A refusal leaves
/// `table` as it was.
pub fn encode(set: &[u8], map: &[u8], bound: u64, table: &mut [u8]) -> Result<u32, Refusal> {
    let (set, map) = accepted(set, map, bound)?;
    let records = records(&set, map.len(), bound as usize);
    let room = table
        .get_mut(..records * FORMULA_BYTES)
        .ok_or(Refusal::ROOM)?;
    let mut encoder = Encoder::new(&set, room);
    encoder.start(&set);
    encoder.map(&map);
    for step in 0..bound as u32 {
        encoder.step(step);
    }
    encoder.goal();
    Ok(records as u32)
}

/// 9, then 10.
pub(crate) fn accepted(set: &[u8], map: &[u8], bound: u64) -> Result<(Set, Vec<Cell>), Refusal> {
    let set = accept_set(set)?;
    let map = accept_map(map, MAX_SET_MAP)?;
    if bound == 0 || bound > MAX_BOUND {
        return Err(Refusal::BOUND);
    }
    Ok((set, map))
}

// ---- the size

/// The closed form: start values, 5 for each map cell, the same number for each step, 3 for the
/// goal.
pub fn records(set: &Set, cells: usize, bound: usize) -> usize {
    let statements: usize = set.threads.iter().map(Vec::len).sum();
    5 + statements + 5 * cells + bound * step_records(set) + 3
}

/// Of one step.
pub fn step_records(set: &Set) -> usize {
    let statements: usize = set
        .threads
        .iter()
        .flat_map(|thread| thread.iter().enumerate())
        .map(|(pc, &statement)| statement_records(statement, pc))
        .sum();
    let marks: usize = set.checkpoints.iter().map(|c| c.threads.len()).sum();
    15 * set.threads.len() + 5 + statements + 4 * marks + set.checkpoints.len()
}

/// Those that a statement adds to each step.
fn statement_records(statement: Statement, pc: usize) -> usize {
    let direct = match statement.instruction {
        Jmp | Halt | Exit => 3,
        Fence | Check => 4,
        Addi | Subi | Muli => 5,
        Jz | Jnz | Js | Jns => 6,
        Store => 7,
        Load | Jnzns => 8,
        Add | Sub | Mul | Mem => 9,
        Cas => 11,
    };
    let to_next =
        is_conditional(statement.instruction) && usize::from(statement.argument) == pc + 1;
    direct + 4 * usize::from(statement.indirect) - usize::from(to_next)
}

fn is_conditional(instruction: Instruction) -> bool {
    instruction.is_jump() && instruction != Jmp
}

// ---- the table so far

/// Records 0 to 4.
const NO: u32 = 0;
const YES: u32 = 1;
const WORD_0: u32 = 2;
const FIRST_MEMORY: u32 = 3;
const WORD_1: u32 = 4;

/// Each function writes a record and gives its index.
struct Table<'a> {
    room: ChunksExactMut<'a, u8>,
    next: u32,
}

impl Table<'_> {
    fn push(&mut self, formula: Formula) -> u32 {
        let record = self.room.next().expect("the size is known beforehand");
        record.copy_from_slice(&formula.bytes());
        let index = self.next;
        self.next += 1;
        index
    }

    fn operation(&mut self, operation: u8, sort: u8, [a, b, c]: [u32; 3]) -> u32 {
        self.push(Formula {
            operation,
            sort,
            constant: 0,
            a,
            b,
            c,
        })
    }

    fn constant(&mut self, sort: u8, constant: u16) -> u32 {
        self.push(Formula {
            operation: CONSTANT,
            sort,
            constant,
            ..Formula::default()
        })
    }

    fn not(&mut self, a: u32) -> u32 {
        self.operation(NOT, sort::BIT, [a, 0, 0])
    }

    fn and(&mut self, a: u32, b: u32) -> u32 {
        self.operation(AND, sort::BIT, [a, b, 0])
    }

    fn or(&mut self, a: u32, b: u32) -> u32 {
        self.operation(OR, sort::BIT, [a, b, 0])
    }

    fn equal(&mut self, a: u32, b: u32) -> u32 {
        self.operation(EQUAL, sort::BIT, [a, b, 0])
    }

    fn top(&mut self, a: u32) -> u32 {
        self.operation(TOP, sort::BIT, [a, 0, 0])
    }

    fn bit_if(&mut self, a: u32, b: u32, c: u32) -> u32 {
        self.operation(IF, sort::BIT, [a, b, c])
    }

    fn word_if(&mut self, a: u32, b: u32, c: u32) -> u32 {
        self.operation(IF, sort::WORD, [a, b, c])
    }

    fn read(&mut self, a: u32, b: u32) -> u32 {
        self.operation(READ, sort::WORD, [a, b, 0])
    }

    fn constraint(&mut self, a: u32) {
        self.operation(CONSTRAINT, sort::NONE, [a, 0, 0]);
    }
}

// ---- what a step keeps of each thread

/// A set of statements or of checkpoints, a bit for each.
#[derive(Clone, Copy, Default)]
struct Mask(u32);

impl Mask {
    fn add(&mut self, index: usize) {
        self.0 |= 1 << index;
    }

    fn has(self, index: usize) -> bool {
        self.0 >> index & 1 == 1
    }
}

/// Ascending.
impl Iterator for Mask {
    type Item = usize;

    fn next(&mut self) -> Option<usize> {
        if self.0 == 0 {
            return None;
        }
        let index = self.0.trailing_zeros() as usize;
        self.0 &= self.0 - 1;
        Some(index)
    }
}

/// The statements of a thread by what they do, found once.
#[derive(Default)]
struct Statements {
    count: usize,
    instructions: Vec<Instruction>,
    targets: Vec<usize>,
    need_empty: Mask,
    indirect: Mask,
    loads: Mask,
    computes: Mask,
    sets_accu: Mask,
    conditional: Mask,
    /// Conditional jumps that are taken where their test holds.
    plain: Mask,
    /// Conditional jumps that lead to two statements.
    two_ways: Mask,
    stores: Mask,
    mems: Mask,
    swaps: Mask,
    halts: Mask,
    exits: Mask,
    /// HALT and EXIT, whose pc stays.
    rests: Mask,
    /// By checkpoint, in the order of the set's.
    checks: [Mask; MAX_CHECKPOINTS],
    checkpoints: Mask,
    /// The statements that lead to a statement.
    leading: [Mask; MAX_STATEMENTS],
}

impl Statements {
    fn new(statements: &[Statement], checkpoints: &[u16]) -> Statements {
        let mut all = Statements {
            count: statements.len(),
            instructions: statements.iter().map(|s| s.instruction).collect(),
            targets: statements.iter().map(|s| usize::from(s.argument)).collect(),
            ..Statements::default()
        };
        for (pc, &statement) in statements.iter().enumerate() {
            all.add(pc, statement, checkpoints);
        }
        all
    }

    fn add(&mut self, pc: usize, statement: Statement, checkpoints: &[u16]) {
        let instruction = statement.instruction;
        if statement.indirect {
            self.indirect.add(pc);
        }
        if instruction.needs_empty_buffer() {
            self.need_empty.add(pc);
        }
        match instruction {
            Load => self.loads.add(pc),
            Mem => {
                self.loads.add(pc);
                self.mems.add(pc);
            }
            Add | Sub | Mul => {
                self.loads.add(pc);
                self.computes.add(pc);
            }
            Addi | Subi | Muli => self.computes.add(pc),
            Cas => {
                self.swaps.add(pc);
                self.computes.add(pc);
            }
            Store => self.stores.add(pc),
            Halt => self.halts.add(pc),
            Exit => self.exits.add(pc),
            Check => {
                let checkpoint = checkpoints.iter().position(|&c| c == statement.argument);
                let checkpoint = checkpoint.expect("the set's checkpoints");
                self.checks[checkpoint].add(pc);
                self.checkpoints.add(checkpoint);
            }
            Jz | Js => self.plain.add(pc),
            Fence | Jmp | Jnz | Jns | Jnzns => {}
        }
        self.sets_accu = Mask(self.loads.0 | self.computes.0);
        self.rests = Mask(self.halts.0 | self.exits.0);
        self.add_leads(pc, instruction);
    }

    fn add_leads(&mut self, pc: usize, instruction: Instruction) {
        let target = self.targets[pc];
        if instruction.is_jump() {
            self.leading[target].add(pc);
        }
        if is_conditional(instruction) {
            self.conditional.add(pc);
            if target != pc + 1 {
                self.two_ways.add(pc);
            }
        }
        if !matches!(instruction, Jmp | Halt | Exit) {
            self.leading[pc + 1].add(pc);
        }
    }
}

/// The indexes of a thread's values: its registers, flags and marks, then what a step makes of
/// them.
struct Values {
    val: u32,
    adr: u32,
    mem: u32,
    accu: u32,
    full: u32,
    halted: u32,
    flags: [u32; MAX_STATEMENTS],
    marks: [u32; MAX_CHECKPOINTS],
    executes: u32,
    flushes: u32,
    active: [u32; MAX_STATEMENTS],
    barred: u32,
    held: [u32; MAX_CHECKPOINTS],
    waits: u32,
    may: u32,
    arguments: [u32; MAX_STATEMENTS],
    addresses: [u32; MAX_STATEMENTS],
    loaded: [u32; MAX_STATEMENTS],
    swaps: [u32; MAX_STATEMENTS],
    results: [u32; MAX_STATEMENTS],
    tests: [u32; MAX_STATEMENTS],
    untests: [u32; MAX_STATEMENTS],
    raised: [u32; MAX_CHECKPOINTS],
}

impl Values {
    /// "A fresh thread has accu, mem, adr, val and full all 0, and pc 0."
    fn fresh() -> Values {
        let mut flags = [NO; MAX_STATEMENTS];
        flags[0] = YES;
        Values {
            val: WORD_0,
            adr: WORD_0,
            mem: WORD_0,
            accu: WORD_0,
            full: NO,
            halted: NO,
            flags,
            marks: [NO; MAX_CHECKPOINTS],
            executes: NO,
            flushes: NO,
            active: [NO; MAX_STATEMENTS],
            barred: NO,
            held: [NO; MAX_CHECKPOINTS],
            waits: NO,
            may: NO,
            arguments: [WORD_0; MAX_STATEMENTS],
            addresses: [WORD_0; MAX_STATEMENTS],
            loaded: [WORD_0; MAX_STATEMENTS],
            swaps: [NO; MAX_STATEMENTS],
            results: [WORD_0; MAX_STATEMENTS],
            tests: [NO; MAX_STATEMENTS],
            untests: [NO; MAX_STATEMENTS],
            raised: [NO; MAX_CHECKPOINTS],
        }
    }

    /// "If full and adr = a then val else read memory at a."
    fn load(&self, table: &mut Table, memory: u32, address: u32) -> u32 {
        let same = table.equal(self.adr, address);
        let forwarded = table.and(self.full, same);
        let cell = table.read(memory, address);
        table.word_if(forwarded, self.val, cell)
    }
}

// ---- the encoder

struct Encoder<'a> {
    table: Table<'a>,
    threads: Vec<(Statements, Values)>,
    checkpoints: usize,
    memory: u32,
    ended: u32,
    code: u32,
}

impl<'a> Encoder<'a> {
    fn new(set: &Set, room: &'a mut [u8]) -> Encoder<'a> {
        let checkpoints: Vec<u16> = set.checkpoints.iter().map(|c| c.number).collect();
        let threads = set
            .threads
            .iter()
            .map(|thread| (Statements::new(thread, &checkpoints), Values::fresh()))
            .collect();
        Encoder {
            table: Table {
                room: room.chunks_exact_mut(FORMULA_BYTES),
                next: 0,
            },
            threads,
            checkpoints: checkpoints.len(),
            memory: FIRST_MEMORY,
            ended: NO,
            code: WORD_0,
        }
    }

    fn start(&mut self, set: &Set) {
        let table = &mut self.table;
        table.constant(sort::BIT, 0);
        table.constant(sort::BIT, 1);
        table.constant(sort::WORD, 0);
        table.operation(FIRST, sort::MEMORY, [0; 3]);
        table.constant(sort::WORD, 1);
        for ((_, values), statements) in self.threads.iter_mut().zip(&set.threads) {
            for (pc, statement) in statements.iter().enumerate() {
                let argument = table.constant(sort::WORD, statement.argument);
                values.arguments[pc] = argument;
                values.addresses[pc] = argument;
            }
        }
    }

    fn map(&mut self, map: &[Cell]) {
        for cell in map {
            let address = self.table.constant(sort::WORD, cell.address);
            let first = self.table.read(FIRST_MEMORY, address);
            let value = self.table.constant(sort::WORD, cell.value);
            let agrees = self.table.equal(first, value);
            self.table.constraint(agrees);
        }
    }

    fn step(&mut self, step: u32) {
        self.choices(step);
        self.active();
        let shut = self.shut();
        self.may(&shut);
        self.one_choice();
        self.effects();
        self.jump_tests();
        let written = self.written_cell();
        self.raised();
        let (exited, code) = self.exits();
        self.next_memory(written);
        self.next_registers();
        self.next_flags();
        self.next_marks();
        self.next_end(exited, code);
    }

    fn goal(&mut self) {
        let is_0 = self.table.equal(self.code, WORD_0);
        let fails = self.table.not(is_0);
        self.table.operation(GOAL, sort::NONE, [fails, 0, 0]);
    }

    /// "Executes by thread, then flushes by thread."
    fn choices(&mut self, step: u32) {
        let table = &mut self.table;
        for (number, (_, values)) in (0..).zip(&mut self.threads) {
            values.executes = table.operation(CHOICE, sort::BIT, [step, 0, number]);
        }
        for (number, (_, values)) in (0..).zip(&mut self.threads) {
            values.flushes = table.operation(CHOICE, sort::BIT, [step, 1, number]);
        }
    }

    fn active(&mut self) {
        for (statements, values) in &mut self.threads {
            for pc in 0..statements.count {
                values.active[pc] = self.table.and(values.flags[pc], values.executes);
            }
        }
    }

    /// For each checkpoint whether it is not open.
    fn shut(&mut self) -> [u32; MAX_CHECKPOINTS] {
        let mut places = [NO; MAX_CHECKPOINTS];
        let places_used = &mut places[..self.checkpoints];
        for (checkpoint, place) in places_used.iter_mut().enumerate() {
            *place = YES;
            for (statements, values) in &self.threads {
                if statements.checkpoints.has(checkpoint) {
                    *place = self.table.and(values.marks[checkpoint], *place);
                }
            }
        }
        for place in places_used {
            *place = self.table.not(*place);
        }
        places
    }

    /// Which threads may execute.
    fn may(&mut self, shut: &[u32; MAX_CHECKPOINTS]) {
        let table = &mut self.table;
        for (statements, values) in &mut self.threads {
            values.barred = NO;
            for pc in statements.need_empty {
                values.barred = table.bit_if(values.active[pc], YES, values.barred);
            }
        }
        for (statements, values) in &mut self.threads {
            for checkpoint in statements.checkpoints {
                values.held[checkpoint] = table.and(values.marks[checkpoint], shut[checkpoint]);
            }
        }
        for (statements, values) in &mut self.threads {
            values.waits = values.halted;
            for checkpoint in statements.checkpoints {
                values.waits = table.or(values.held[checkpoint], values.waits);
            }
        }
        for (_, values) in &mut self.threads {
            let held_up = table.and(values.full, values.barred);
            let blocked = table.or(held_up, values.waits);
            values.may = table.not(blocked);
        }
    }

    /// Before the end exactly one choice, and it permitted; none after.
    fn one_choice(&mut self) {
        let table = &mut self.table;
        let count = 2 * self.threads.len();
        let mut choices = [NO; 2 * MAX_THREADS];
        let mut permits = [NO; 2 * MAX_THREADS];
        for (number, (_, values)) in self.threads.iter().enumerate() {
            let flush = self.threads.len() + number;
            (choices[number], permits[number]) = (values.executes, values.may);
            (choices[flush], permits[flush]) = (values.flushes, values.full);
        }
        let mut none_before = [YES; 2 * MAX_THREADS + 1];
        for (at, &choice) in choices[..count].iter().enumerate() {
            none_before[at + 1] = table.bit_if(choice, NO, none_before[at]);
        }
        let mut fits = [NO; 2 * MAX_THREADS];
        for at in 0..count {
            fits[at] = table.and(permits[at], none_before[at]);
        }
        let mut one = NO;
        for at in 0..count {
            one = table.bit_if(choices[at], fits[at], one);
        }
        let ruled = table.bit_if(self.ended, none_before[count], one);
        table.constraint(ruled);
    }

    /// Addresses, loads, swaps, and what accu becomes.
    fn effects(&mut self) {
        let table = &mut self.table;
        for (statements, values) in &mut self.threads {
            for pc in statements.indirect {
                values.addresses[pc] = values.load(table, self.memory, values.arguments[pc]);
            }
        }
        for (statements, values) in &mut self.threads {
            for pc in statements.loads {
                values.loaded[pc] = values.load(table, self.memory, values.addresses[pc]);
                values.results[pc] = values.loaded[pc];
            }
        }
        for (statements, values) in &mut self.threads {
            for pc in statements.swaps {
                let cell = table.read(self.memory, values.addresses[pc]);
                let matches = table.equal(cell, values.mem);
                values.swaps[pc] = table.and(values.active[pc], matches);
            }
        }
        for (statements, values) in &mut self.threads {
            for pc in statements.computes {
                let (loaded, argument) = (values.loaded[pc], values.arguments[pc]);
                let (operation, operand) = match statements.instructions[pc] {
                    Add => (PLUS, loaded),
                    Addi => (PLUS, argument),
                    Sub => (MINUS, loaded),
                    Subi => (MINUS, argument),
                    Mul => (TIMES, loaded),
                    Muli => (TIMES, argument),
                    _ => {
                        values.results[pc] = table.word_if(values.swaps[pc], WORD_1, WORD_0);
                        continue;
                    }
                };
                values.results[pc] =
                    table.operation(operation, sort::WORD, [values.accu, operand, 0]);
            }
        }
    }

    fn jump_tests(&mut self) {
        let table = &mut self.table;
        for (statements, values) in &mut self.threads {
            for pc in statements.conditional {
                values.tests[pc] = match statements.instructions[pc] {
                    Jz | Jnz => table.equal(values.accu, WORD_0),
                    Js | Jns => table.top(values.accu),
                    _ => {
                        let negative = table.top(values.accu);
                        let zero = table.equal(values.accu, WORD_0);
                        table.or(negative, zero)
                    }
                };
            }
        }
        for (statements, values) in &mut self.threads {
            for pc in statements.conditional {
                values.untests[pc] = table.not(values.tests[pc]);
            }
        }
    }

    /// The address and the value of the one cell written; where no thread writes, cell 0 gets its own
    /// value.
    fn written_cell(&mut self) -> [u32; 2] {
        let table = &mut self.table;
        let mut address = WORD_0;
        for (_, values) in &self.threads {
            address = table.word_if(values.flushes, values.adr, address);
        }
        for (statements, values) in &self.threads {
            for pc in statements.swaps {
                address = table.word_if(values.swaps[pc], values.addresses[pc], address);
            }
        }
        let mut value = table.read(self.memory, address);
        for (_, values) in &self.threads {
            value = table.word_if(values.flushes, values.val, value);
        }
        for (statements, values) in &self.threads {
            for pc in statements.swaps {
                value = table.word_if(values.swaps[pc], values.accu, value);
            }
        }
        [address, value]
    }

    /// Which CHECKs are executed.
    fn raised(&mut self) {
        for (statements, values) in &mut self.threads {
            for checkpoint in statements.checkpoints {
                let mut raised = NO;
                for pc in statements.checks[checkpoint] {
                    raised = self.table.bit_if(values.active[pc], YES, raised);
                }
                values.raised[checkpoint] = raised;
            }
        }
    }

    /// Ended, and the code, after the EXITs.
    fn exits(&mut self) -> (u32, u32) {
        let table = &mut self.table;
        let (mut exited, mut code) = (self.ended, self.code);
        for (statements, values) in &self.threads {
            for pc in statements.exits {
                exited = table.bit_if(values.active[pc], YES, exited);
            }
        }
        for (statements, values) in &self.threads {
            for pc in statements.exits {
                code = table.word_if(values.active[pc], values.arguments[pc], code);
            }
        }
        (exited, code)
    }

    fn next_memory(&mut self, [address, value]: [u32; 2]) {
        let operands = [self.memory, address, value];
        self.memory = self.table.operation(WRITE, sort::MEMORY, operands);
    }

    fn next_registers(&mut self) {
        let table = &mut self.table;
        for (statements, values) in &mut self.threads {
            for pc in statements.stores {
                values.val = table.word_if(values.active[pc], values.accu, values.val);
            }
        }
        for (statements, values) in &mut self.threads {
            for pc in statements.stores {
                values.adr = table.word_if(values.active[pc], values.addresses[pc], values.adr);
            }
        }
        for (statements, values) in &mut self.threads {
            for pc in statements.mems {
                values.mem = table.word_if(values.active[pc], values.loaded[pc], values.mem);
            }
        }
        for (statements, values) in &mut self.threads {
            for pc in statements.sets_accu {
                values.accu = table.word_if(values.active[pc], values.results[pc], values.accu);
            }
        }
        for (statements, values) in &mut self.threads {
            values.full = table.bit_if(values.flushes, NO, values.full);
            for pc in statements.stores {
                values.full = table.bit_if(values.active[pc], YES, values.full);
            }
        }
        for (statements, values) in &mut self.threads {
            for pc in statements.halts {
                values.halted = table.bit_if(values.active[pc], YES, values.halted);
            }
        }
    }

    /// A thread that executes leaves its statement, but HALT and EXIT stay.
    fn next_flags(&mut self) {
        let table = &mut self.table;
        for (statements, values) in &mut self.threads {
            for pc in 0..statements.count {
                let mut flag = values.flags[pc];
                if !statements.rests.has(pc) {
                    flag = table.bit_if(values.executes, NO, flag);
                }
                for from in statements.leading[pc] {
                    let leads = if !statements.two_ways.has(from) {
                        YES
                    } else if (statements.targets[from] == pc) == statements.plain.has(from) {
                        values.tests[from]
                    } else {
                        values.untests[from]
                    };
                    flag = table.bit_if(values.active[from], leads, flag);
                }
                values.flags[pc] = flag;
            }
        }
    }

    /// A mark at a checkpoint that is not open stays; a CHECK's own is set after the clearing.
    fn next_marks(&mut self) {
        for (statements, values) in &mut self.threads {
            for checkpoint in statements.checkpoints {
                let (held, raised) = (values.held[checkpoint], values.raised[checkpoint]);
                values.marks[checkpoint] = self.table.or(held, raised);
            }
        }
    }

    fn next_end(&mut self, exited: u32, code: u32) {
        let mut all_halted = YES;
        for (_, values) in &self.threads {
            all_halted = self.table.and(values.halted, all_halted);
        }
        self.ended = self.table.or(all_halted, exited);
        self.code = code;
    }
}

#[cfg(test)]
mod tests {
    use super::*;
    use crate::records::{map_bytes, set_bytes};

    /// Document 01's case 3, with its map.
    fn sample_3() -> (Vec<u8>, Vec<u8>) {
        let thread = |statements: &[(Instruction, u16)]| -> Vec<Statement> {
            let new = |&(instruction, argument)| Statement::new(instruction, argument);
            statements.iter().map(new).collect()
        };
        let threads = [
            thread(&[(Addi, 1), (Store, 0), (Halt, 0)]),
            thread(&[(Load, 0), (Jz, 3), (Exit, 0), (Exit, 7)]),
        ];
        let map = [Cell {
            address: 0,
            value: 0,
        }];
        (set_bytes(&threads), map_bytes(&map))
    }

    // As crates/encoding/proofs/Samples.antt counts.
    #[test]
    fn sizes_of_sample_3() {
        let (set, map) = sample_3();
        for bound in 1..=64 {
            let size = 17 + 70 * bound as u32 + 3;
            assert_eq!(table_size(&set, &map, bound), Ok(size));
        }
    }

    #[test]
    fn refusals_in_order() {
        let (set, map) = sample_3();
        let mut out = [7; 16];
        for bound in [0, 65, 1 << 32, u64::MAX] {
            assert_eq!(table_size(&set, &map, bound), Err(Refusal::BOUND));
            assert_eq!(encode(&set, &map, bound, &mut out), Err(Refusal::BOUND));
            assert_eq!(table_size(&[], &map, bound), Err(Refusal::RECORDS));
            let damaged = encode(&set, &map[1..], bound, &mut out);
            assert_eq!(damaged, Err(Refusal::RECORDS));
        }
        assert_eq!(encode(&set, &map, 1, &mut out), Err(Refusal::ROOM));
        assert_eq!(out, [7; 16]);
    }

    #[test]
    fn maps_of_128_and_129_cells() {
        let (set, _) = sample_3();
        for (count, fits) in [(128, true), (129, false)] {
            let cells: Vec<Cell> = (0..count)
                .map(|address| Cell { address, value: 3 })
                .collect();
            assert_eq!(table_size(&set, &map_bytes(&cells), 1).is_ok(), fits);
        }
    }

    #[test]
    fn room_is_exact_and_bytes_beyond_stay() {
        let (set, map) = sample_3();
        let size = table_size(&set, &map, 5).expect("accepted");
        let bytes = size as usize * FORMULA_BYTES;
        let mut exact = vec![7; bytes];
        assert_eq!(encode(&set, &map, 5, &mut exact), Ok(size));
        let mut short = vec![7; bytes - 1];
        assert_eq!(encode(&set, &map, 5, &mut short), Err(Refusal::ROOM));
        assert!(short.iter().all(|&byte| byte == 7));
        let mut longer = vec![7; bytes + 33];
        assert_eq!(encode(&set, &map, 5, &mut longer), Ok(size));
        assert_eq!(longer[..bytes], exact);
        assert_eq!(longer[bytes..], [7; 33]);
    }
}
