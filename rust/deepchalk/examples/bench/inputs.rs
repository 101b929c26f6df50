//! The sets, runs and models that the calls are timed on.

use reference::records::{accept_map, accept_set, map_bytes, set_bytes, MAX_GIVEN_MAP};
use reference::trace::{MAX_STEPS, STEP_BYTES};
use reference::Instruction::{self, *};
use reference::{Cell, Choice, Machine, Model, Statement};
use testing::models::ModelInput;
use testing::schedules::trace_of;

/// What simulation and replay are given.
pub struct Workload {
    pub name: &'static str,
    pub set: Vec<u8>,
    pub map: Vec<u8>,
    pub schedule: Vec<u8>,
    pub trace: Vec<u8>,
}

impl Workload {
    /// 64 steps: the choices in turn, each one taken where it is permitted.
    fn in_turn(name: &'static str, set: Vec<u8>, map: Vec<u8>, turns: &[u8]) -> Workload {
        let schedule = in_turn(&set, &map, turns);
        Workload::by(name, set, map, schedule)
    }

    fn by(name: &'static str, set: Vec<u8>, map: Vec<u8>, schedule: Vec<u8>) -> Workload {
        let trace = trace_of(&set, &map, &schedule);
        Workload {
            name,
            set,
            map,
            schedule,
            trace,
        }
    }

    /// Its first steps.
    pub fn cut(mut self, steps: usize) -> Workload {
        self.schedule.truncate(steps);
        self.trace.truncate(steps * STEP_BYTES);
        self
    }
}

fn in_turn(set: &[u8], map: &[u8], turns: &[u8]) -> Vec<u8> {
    let set = accept_set(set).expect("an accepted set");
    let map = accept_map(map, MAX_GIVEN_MAP).expect("an accepted map");
    let mut machine = Machine::fresh(&set, map);
    let mut schedule = Vec::new();
    for &byte in turns.iter().cycle() {
        if schedule.len() == MAX_STEPS {
            break;
        }
        let choice = Choice::from_schedule(byte);
        if machine.permitted(choice) {
            machine.step(choice).expect("the map has every cell read");
            schedule.push(byte);
        }
    }
    schedule
}

fn plain(statements: &[(Instruction, u16)]) -> Vec<Statement> {
    let plain = |&(instruction, argument)| Statement::new(instruction, argument);
    statements.iter().map(plain).collect()
}

// ---- runs

pub fn store_loop() -> Workload {
    let set = set_bytes(&[plain(&[(Addi, 1), (Store, 7), (Jmp, 0)])]);
    let name = "one thread, store loop, 64 steps";
    Workload::in_turn(name, set, Vec::new(), &[0, 0, 128, 0])
}

/// Four threads of so many statements over a map of 128 cells; of eight statements seven touch memory,
/// three of these indirectly.
pub fn memory_heavy(statements: usize) -> Workload {
    let threads: Vec<Vec<Statement>> = (0..4)
        .map(|thread| memory_heavy_thread(thread, statements))
        .collect();
    let name = "four threads of 32, map of 128 cells, 64 steps";
    let turns = [0, 1, 2, 3, 128, 129, 130, 131];
    Workload::in_turn(name, set_bytes(&threads), cells(128), &turns)
}

fn memory_heavy_thread(thread: usize, statements: usize) -> Vec<Statement> {
    let statement = |pc: usize| {
        let address = ((thread * 31 + pc * 3) % 128 * 509) as u16;
        match pc % 8 {
            0 => Statement::indirect(Load, address),
            1 => Statement::new(Store, address),
            2 => Statement::indirect(Mem, address),
            3 => Statement::new(Add, address),
            4 => Statement::new(Fence, 0),
            5 => Statement::new(Cas, address),
            6 => Statement::indirect(Sub, address),
            _ => Statement::new(Load, address),
        }
    };
    let mut thread: Vec<Statement> = (0..statements - 1).map(statement).collect();
    thread.push(Statement::new(Jmp, 0));
    thread
}

fn cells(count: u16) -> Vec<u8> {
    let cell = |index: u16| Cell {
        address: index * 509,
        value: (index * 7 % count) * 509,
    };
    map_bytes(&(0..count).map(cell).collect::<Vec<Cell>>())
}

pub fn small() -> Workload {
    let set = set_bytes(&[plain(&[(Jmp, 0)]), plain(&[(Addi, 1), (Exit, 3)])]);
    Workload::by(
        "two threads of 1 and 2, 3 steps",
        set,
        Vec::new(),
        vec![1, 0, 1],
    )
}

pub fn checkpoints() -> Workload {
    let checks: Vec<(Instruction, u16)> = (0..8).map(|number| (Check, number)).collect();
    let thread = plain(&[checks.as_slice(), &[(Jmp, 0)]].concat());
    let name = "four threads, eight checkpoints, 64 steps";
    Workload::in_turn(name, set_bytes(&vec![thread; 4]), Vec::new(), &[0, 1, 2, 3])
}

/// Sets of four threads of 31 statements of one sort and a jump to the first.
pub fn of_one_sort() -> Vec<(&'static str, Vec<u8>)> {
    let all = |sort: fn(u16) -> (Instruction, u16)| {
        let statements = (0..31).map(sort).chain([(Jmp, 0)]);
        let thread = plain(&statements.collect::<Vec<_>>());
        set_bytes(&vec![thread; 4])
    };
    vec![
        ("JNZ, each to another", all(|pc| (Jnz, pc * 7 % 31))),
        ("JNZ to the next", all(|pc| (Jnz, pc + 1))),
        ("JMP to the first", all(|_| (Jmp, 0))),
        ("CHECK, eight in turn", all(|pc| (Check, pc % 8))),
        ("CAS", all(|pc| (Cas, pc))),
        ("STORE", all(|pc| (Store, pc))),
        ("ADDI", all(|pc| (Addi, pc))),
        (
            "jump, CHECK, STORE, LOAD, ADDI in turn",
            all(|pc| match pc % 5 {
                0 => (Jnz, pc * 5 % 31),
                1 => (Check, pc % 8),
                2 => (Store, pc),
                3 => (Load, pc),
                _ => (Addi, pc),
            }),
        ),
    ]
}

/// The schedule's byte for step 60 names no thread, and that step of the trace has a wrong field.
pub fn refused_late() -> Workload {
    let mut workload = store_loop();
    workload.name = "refused at step 60";
    workload.schedule[60] = 1;
    workload.trace[60 * STEP_BYTES + 8] ^= 1;
    workload
}

// ---- models

/// The memory workload with an EXIT as thread 0's first statement: the other threads run before it, so
/// that the run fails in the bound's last step.
pub fn failing(statements: usize, bound: usize) -> ModelInput {
    let heavy = memory_heavy(statements);
    let mut set = heavy.set;
    set[..8].copy_from_slice(&[0, Exit.number(), 0, 0, 1, 0, 0, 0]);
    let mut schedule = in_turn(&set, &heavy.map, &[1, 2, 3, 129, 130, 131]);
    schedule.truncate(bound - 1);
    schedule.push(0);
    model_input(set, heavy.map, bound, &schedule)
}

/// The store-buffer litmus test with its outcome.
pub fn litmus() -> ModelInput {
    let litmus = reference::litmus::intel().swap_remove(2);
    let judged = litmus.judged();
    let set = set_bytes(&judged.threads);
    let accepted = accept_set(&set).expect("an accepted set");
    let bound = litmus.judged_bound();
    let run = reference::search::shortest_failing(&accepted, &judged.map, bound);
    let run = run.expect("an allowed outcome");
    let schedule: Vec<u8> = run.iter().map(|choice| choice.schedule_byte()).collect();
    model_input(set, map_bytes(&judged.map), bound, &schedule)
}

fn model_input(set: Vec<u8>, map: Vec<u8>, bound: usize, schedule: &[u8]) -> ModelInput {
    let choice = |&byte| Choice::from_schedule(byte);
    let run: Vec<Choice> = schedule.iter().map(choice).collect();
    let threads = accept_set(&set).expect("an accepted set").threads.len();
    let cells = accept_map(&map, MAX_GIVEN_MAP).expect("an accepted map");
    let model = Model::of_run(&run, threads, bound, cells).bytes();
    ModelInput {
        set,
        map,
        bound: bound as u64,
        model,
    }
}
