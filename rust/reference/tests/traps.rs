//! Document 01's "Traps in the encoding", each by name, and the cases that speak of tables.

use reference::Instruction::{self, *};
use reference::{Cell, Choice, Statement};
use testing::assignments::{of_run, Broken};
use testing::tables::Table;

fn thread(statements: &[(Instruction, u16)]) -> Vec<Statement> {
    statements
        .iter()
        .map(|&(instruction, argument)| Statement::new(instruction, argument))
        .collect()
}

fn cells(map: &[(u16, u16)]) -> Vec<Cell> {
    map.iter()
        .map(|&(address, value)| Cell { address, value })
        .collect()
}

/// What the schedule's assignment breaks in the table for this bound. Cells not mapped are 0.
fn judge(
    threads: &[Vec<Statement>],
    map: &[(u16, u16)],
    bound: usize,
    schedule: &[u8],
) -> Option<Broken> {
    let mut first = vec![0; 65_536];
    for &(address, value) in map {
        first[usize::from(address)] = value;
    }
    let run: Vec<Choice> = schedule.iter().map(|&b| Choice::from_schedule(b)).collect();
    let table = Table::new(threads, cells(map), bound);
    table.judge(&of_run(&run, threads.len(), bound, first))
}

/// Every schedule of this length, choices not permitted included.
fn every_schedule(threads: usize, length: u32) -> impl Iterator<Item = Vec<u8>> {
    let choices = 2 * threads;
    (0..choices.pow(length)).map(move |mut number| {
        (0..length)
            .map(|_| {
                let choice = number % choices;
                number /= choices;
                let thread = (choice % threads) as u8;
                thread + if choice < threads { 0 } else { 128 }
            })
            .collect()
    })
}

// "A jump to itself, as section 6 of 002 activates statements, loses its statement in a step where it
// did not run (case 4)."
#[test]
fn a_jump_to_itself() {
    let threads = [thread(&[(Jmp, 0)]), thread(&[(Addi, 1), (Exit, 3)])];
    assert_eq!(judge(&threads, &[], 3, &[1, 0, 1]), None);
    // Its statement stays after a step of the other thread, and after its own.
    assert_eq!(judge(&threads, &[], 5, &[0, 0, 1, 0, 1]), None);
    assert_eq!(judge(&threads, &[], 2, &[1, 0]), Some(Broken::Goal));
    let conditional = [
        thread(&[(Jz, 0), (Exit, 1)]),
        thread(&[(Jnz, 0), (Jns, 1), (Exit, 2)]),
    ];
    assert_eq!(
        judge(&conditional, &[], 4, &[0, 1, 0, 1]),
        Some(Broken::Goal)
    );
}

// "A jump to the next statement, as section 6 has it, goes on only where its condition holds (case
// 5)."
#[test]
fn a_jump_to_the_next_statement() {
    let threads = [thread(&[(Addi, 1), (Jz, 2), (Exit, 2)])];
    assert_eq!(judge(&threads, &[], 3, &[0, 0, 0]), None);
    for jump in [Jmp, Jz, Jnz, Js, Jns, Jnzns] {
        for accu in [0, 1, 32_768] {
            let threads = [thread(&[(Addi, accu), (jump, 2), (Exit, 2)])];
            assert_eq!(judge(&threads, &[], 3, &[0, 0, 0]), None);
        }
    }
}

// "Forwarding only the final load and not the address word."
#[test]
fn forwarding_of_the_address_word() {
    // Cell 2 has 9; the buffer has 3 for it, so that LOAD [2] gives cell 3 and not cell 9.
    let threads = [vec![
        Statement::new(Addi, 3),
        Statement::new(Store, 2),
        Statement::indirect(Load, 2),
        Statement::new(Jz, 5),
        Statement::new(Exit, 1),
        Statement::new(Exit, 2),
    ]];
    let run = [0, 0, 0, 0, 0];
    assert_eq!(judge(&threads, &[(2, 9), (3, 0), (9, 7)], 5, &run), None);
    let zero = [vec![
        Statement::new(Addi, 3),
        Statement::new(Store, 2),
        Statement::indirect(Load, 2),
        Statement::new(Jz, 5),
        Statement::new(Exit, 1),
        Statement::new(Exit, 0),
    ]];
    let goal = Some(Broken::Goal);
    assert_eq!(judge(&zero, &[(2, 9), (3, 0), (9, 7)], 5, &run), goal);
    assert_eq!(judge(&zero, &[(2, 9), (3, 7), (9, 0)], 5, &run), None);
}

// "Exiting while a thread without HALT still runs."
#[test]
fn no_end_while_a_thread_without_halt_runs() {
    let threads = [thread(&[(Halt, 0)]), thread(&[(Jmp, 0)])];
    // Bits after thread 0 halted are demanded, not forbidden.
    assert_eq!(judge(&threads, &[], 2, &[0]), Some(Broken::Step(1)));
    assert_eq!(judge(&threads, &[], 3, &[0, 1, 1]), Some(Broken::Goal));
    let exits = [thread(&[(Halt, 0)]), thread(&[(Addi, 1), (Exit, 4)])];
    assert_eq!(judge(&exits, &[], 3, &[0, 1, 1]), None);
    // With all halted it has ended.
    let both = [thread(&[(Halt, 0)]), thread(&[(Halt, 0)])];
    assert_eq!(judge(&both, &[], 3, &[0, 1]), Some(Broken::Goal));
    assert_eq!(judge(&both, &[], 3, &[0, 1, 1]), Some(Broken::Step(2)));
}

#[test]
fn case_1() {
    for bound in [1, 2, 64] {
        assert_eq!(judge(&[thread(&[(Exit, 1)])], &[], bound, &[0]), None);
        let zero = [thread(&[(Exit, 0)])];
        assert_eq!(judge(&zero, &[], bound, &[0]), Some(Broken::Goal));
    }
}

#[test]
fn case_2() {
    let threads = [thread(&[
        (Addi, 1),
        (Store, 5),
        (Load, 5),
        (Jz, 5),
        (Exit, 0),
        (Exit, 1),
    ])];
    for length in 1..=8 {
        for schedule in every_schedule(1, length) {
            assert!(judge(&threads, &[(5, 0)], length as usize, &schedule).is_some());
        }
    }
}

#[test]
fn case_3() {
    let threads = [
        thread(&[(Addi, 1), (Store, 0), (Halt, 0)]),
        thread(&[(Load, 0), (Jz, 3), (Exit, 0), (Exit, 7)]),
    ];
    let satisfied = |value: u16, length: u32| {
        every_schedule(2, length)
            .filter(|s| judge(&threads, &[(0, value)], length as usize, s).is_none())
            .count()
    };
    assert_eq!(
        [satisfied(0, 1), satisfied(0, 2), satisfied(0, 3)],
        [0, 0, 1]
    );
    assert_eq!([satisfied(1, 3), satisfied(1, 4)], [0, 0]);
}

// "The next step, by anyone, clears its marks." Of a CHECK of the same number in that very step, since
// request 2026-05: "its mark is set after the clearing".
#[test]
fn marks_are_cleared_by_the_next_step() {
    let threads = [
        thread(&[(Check, 2), (Jmp, 0)]),
        thread(&[(Check, 2), (Check, 2), (Exit, 1)]),
    ];
    // Step 1 opens the checkpoint; the CHECK in step 2 marks thread 1, which then waits.
    let waits = |step| Some(Broken::Step(step));
    assert_eq!(judge(&threads, &[], 4, &[0, 1, 1, 1]), waits(3));
    // Thread 0 clears in step 2, and the CHECK in step 3 marks thread 1, which then waits.
    assert_eq!(judge(&threads, &[], 5, &[0, 1, 0, 1, 1]), waits(4));
    // Thread 0 waits in step 1.
    assert_eq!(judge(&threads, &[], 3, &[0, 0]), Some(Broken::Step(1)));
    // Thread 0 comes round again and opens it for thread 1.
    assert_eq!(judge(&threads, &[], 6, &[0, 1, 0, 1, 0, 1]), None);
    assert_eq!(judge(&threads, &[], 6, &[0, 1, 1, 0, 0, 1]), None);
}

// Request 2026-05, "one of two threads where it falls in the clearing step": by the table not for K 5,
// yes for K 6; with HALT as the second thread's last statement for no K.
#[test]
fn no_thread_runs_ahead_of_a_checkpoint() {
    let first = thread(&[(Check, 0), (Check, 0), (Exit, 1)]);
    let satisfied = |last: Instruction, length: u32| {
        let threads = [first.clone(), thread(&[(Check, 0), (last, 0)])];
        every_schedule(2, length)
            .filter(|s| judge(&threads, &[], length as usize, s).is_none())
            .count()
    };
    assert_eq!([satisfied(Jmp, 4), satisfied(Jmp, 5)], [0, 0]);
    assert_eq!([satisfied(Halt, 4), satisfied(Halt, 5)], [0, 0]);
    // Either thread comes first; the second CHECK falls before, between or after thread 1's two steps.
    assert_eq!(satisfied(Jmp, 6), 6);
}

// "A CHECK of another number in the clearing step marks", and a flush clears too.
#[test]
fn checks_of_other_numbers_and_flushes() {
    let threads = [
        thread(&[(Check, 2), (Check, 3), (Exit, 1)]),
        thread(&[(Store, 0), (Check, 2), (Jmp, 1), (Check, 3), (Halt, 0)]),
    ];
    let waits = Some(Broken::Step(4));
    assert_eq!(judge(&threads, &[], 5, &[0, 1, 1, 0, 0]), waits);
    // Waiting does not forbid the flush, and the flush clears the marks.
    assert_eq!(judge(&threads, &[], 4, &[1, 1, 129, 0]), Some(Broken::Goal));
    assert_eq!(
        judge(&threads, &[], 5, &[1, 1, 0, 129, 1]),
        Some(Broken::Goal)
    );
}
