//! Simulation: a run by a given schedule, and its trace.

use crate::records::MAX_GIVEN_MAP;
use crate::trace::{trace_step, MAX_STEPS, STEP_BYTES};
use crate::{accept_map, accept_set, Choice, Machine, Ran, Refusal};

/// Runs the schedule and writes its trace to the front of `out`. A refusal leaves `out` as it was.
pub fn simulate(set: &[u8], map: &[u8], schedule: &[u8], out: &mut [u8]) -> Result<Ran, Refusal> {
    let set = accept_set(set)?;
    let map = accept_map(map, MAX_GIVEN_MAP)?;
    if schedule.len() > MAX_STEPS {
        return Err(Refusal::LENGTH);
    }
    let room = out
        .get_mut(..schedule.len() * STEP_BYTES)
        .ok_or(Refusal::ROOM)?;

    let mut machine = Machine::fresh(&set, map);
    let mut trace = Vec::with_capacity(room.len());
    for (step, &byte) in schedule.iter().enumerate() {
        let choice = Choice::from_schedule(byte);
        if !machine.permitted(choice) {
            return Err(Refusal::not_permitted(step));
        }
        trace.extend_from_slice(&trace_step(&machine, choice));
        machine
            .step(choice)
            .map_err(|_| Refusal::lacks_cell(step))?;
    }
    room.copy_from_slice(&trace);
    Ok(Ran {
        steps: schedule.len() as u16,
        end: machine.end(),
    })
}

#[cfg(test)]
mod tests {
    use super::*;
    use crate::records::{map_bytes, set_bytes};
    use crate::{Cell, End, Instruction::*, Statement};

    type Threads = Vec<Vec<Statement>>;

    fn thread(statements: &[(crate::Instruction, u16)]) -> Vec<Statement> {
        statements
            .iter()
            .map(|&(instruction, argument)| Statement::new(instruction, argument))
            .collect()
    }

    /// The answer and the trace steps.
    fn run(
        threads: Threads,
        map: &[(u16, u16)],
        schedule: &[u8],
    ) -> Result<(Ran, Vec<[u8; STEP_BYTES]>), Refusal> {
        let cells: Vec<Cell> = map
            .iter()
            .map(|&(address, value)| Cell { address, value })
            .collect();
        let mut out = vec![0xa5; schedule.len() * STEP_BYTES + 3];
        let answer = simulate(&set_bytes(&threads), &map_bytes(&cells), schedule, &mut out);
        let written = answer.map_or(0, |ran| usize::from(ran.steps) * STEP_BYTES);
        assert!(out[written..].iter().all(|&byte| byte == 0xa5));
        let steps = out[..written]
            .chunks_exact(STEP_BYTES)
            .map(|step| step.try_into().unwrap())
            .collect();
        answer.map(|ran| (ran, steps))
    }

    fn refused(threads: Threads, map: &[(u16, u16)], schedule: &[u8]) -> (u8, u32) {
        let refusal = run(threads, map, schedule).unwrap_err();
        (refusal.number, refusal.place)
    }

    fn accu(step: &[u8; STEP_BYTES]) -> u16 {
        crate::records::field(step, 8)
    }

    #[test]
    fn sample_4_a_jump_to_itself() {
        let threads = vec![thread(&[(Jmp, 0)]), thread(&[(Addi, 1), (Exit, 3)])];
        let (ran, steps) = run(threads, &[], &[1, 0, 1]).unwrap();
        assert_eq!(ran.steps, 3);
        assert_eq!(ran.end, End::Code(3));
        let expected: [[u8; STEP_BYTES]; 3] = [
            [
                1, 4, 0, 0, 1, 0, 0, 0, 0, 0, 0, 0, 0, 0, 0, 0, 0, 0, 0, 0, 0, 0, 0, 0,
            ],
            [
                0, 9, 0, 0, 0, 0, 0, 0, 0, 0, 0, 0, 0, 0, 0, 0, 0, 0, 0, 0, 0, 0, 0, 0,
            ],
            [
                1, 18, 1, 0, 3, 0, 0, 0, 1, 0, 0, 0, 0, 0, 0, 0, 0, 0, 0, 0, 0, 0, 0, 0,
            ],
        ];
        assert_eq!(steps, expected);
    }

    #[test]
    fn sample_6_the_low_16_bits() {
        let adds = thread(&[(Addi, 65_535), (Addi, 1), (Halt, 0)]);
        let (_, steps) = run(vec![adds], &[], &[0; 3]).unwrap();
        assert_eq!(accu(&steps[1]), 65_535);
        assert_eq!(accu(&steps[2]), 0);
        let multiplies = thread(&[(Addi, 300), (Muli, 300), (Halt, 0)]);
        let (_, steps) = run(vec![multiplies], &[], &[0; 3]).unwrap();
        assert_eq!(accu(&steps[2]), 24_464);
    }

    #[test]
    fn sample_6_jnzns() {
        for (start, code) in [(32_767, 2), (0, 1), (32_768, 1)] {
            let jumps = thread(&[(Addi, start), (Jnzns, 3), (Exit, 1), (Exit, 2)]);
            let (ran, _) = run(vec![jumps], &[], &[0; 3]).unwrap();
            assert_eq!(ran.end, End::Code(code));
        }
    }

    #[test]
    fn sample_7_a_cas_that_matches() {
        let swaps = thread(&[(Mem, 4), (Addi, 1), (Cas, 4), (Load, 4), (Halt, 0)]);
        let (ran, steps) = run(vec![swaps], &[(4, 9)], &[0; 5]).unwrap();
        assert_eq!(ran.end, End::Code(0));
        assert_eq!(accu(&steps[3]), 1);
        assert_eq!(steps[3][16..24], [1, 0, 4, 0, 10, 0, 0, 0]);
        assert_eq!(accu(&steps[4]), 10);
        assert_eq!(steps[4][16..24], [0; 8]);
    }

    #[test]
    fn sample_8_a_full_buffer() {
        let fences = thread(&[(Store, 0), (Fence, 0), (Halt, 0)]);
        assert_eq!(refused(vec![fences.clone()], &[], &[0, 0]), (12, 1));
        let (ran, _) = run(vec![fences], &[], &[0, 128, 0, 0]).unwrap();
        assert_eq!(ran.end, End::Code(0));
        let checks = thread(&[(Store, 0), (Check, 0), (Halt, 0)]);
        let (ran, _) = run(vec![checks], &[], &[0, 0]).unwrap();
        assert_eq!(ran.end, End::Open);
    }

    #[test]
    fn schedules_of_64_and_65_steps() {
        let (ran, _) = run(vec![thread(&[(Jmp, 0)])], &[], &[0; 64]).unwrap();
        assert_eq!((ran.steps, ran.end), (64, End::Open));
        assert_eq!(refused(vec![thread(&[(Jmp, 0)])], &[], &[0; 65]), (17, 0));
    }

    #[test]
    fn room_is_asked_before_any_step() {
        let set = set_bytes(&[thread(&[(Jmp, 0)])]);
        let mut out = [7; 2 * STEP_BYTES];
        let short = 2 * STEP_BYTES - 1;
        // The second choice is not permitted, but the room comes first.
        let answer = simulate(&set, &[], &[0, 1], &mut out[..short]);
        assert_eq!(answer, Err(Refusal::ROOM));
        assert_eq!(
            simulate(&set, &[], &[0, 1], &mut out),
            Err(Refusal::not_permitted(1))
        );
        assert_eq!(out, [7; 2 * STEP_BYTES]);
        assert_eq!(
            simulate(&set, &[], &[], &mut []),
            Ok(Ran {
                steps: 0,
                end: End::Open
            })
        );
    }

    #[test]
    fn the_address_word_is_forwarded_too() {
        // Cell 2 holds 3 in the buffer only; LOAD [2] therefore reads cell 3.
        let loads = vec![
            Statement::new(Addi, 3),
            Statement::new(Store, 2),
            Statement::indirect(Load, 2),
            Statement::new(Exit, 1),
        ];
        let (_, steps) = run(vec![loads], &[(2, 9), (3, 77), (9, 5)], &[0; 4]).unwrap();
        assert_eq!(accu(&steps[3]), 77);
    }

    #[test]
    fn a_lacking_cell_is_refused_unless_forwarded_or_written() {
        let loads = thread(&[(Store, 5), (Load, 5), (Load, 6), (Halt, 0)]);
        assert_eq!(refused(vec![loads.clone()], &[], &[0, 0, 0]), (14, 2));
        assert_eq!(refused(vec![loads], &[], &[0, 128, 0, 0]), (14, 3));
        // A STORE does not read its target, but the word of an indirect address.
        let stores = vec![Statement::indirect(Store, 1), Statement::new(Halt, 0)];
        assert_eq!(refused(vec![stores], &[], &[0]), (14, 0));
        let swaps = thread(&[(Cas, 1), (Halt, 0)]);
        assert_eq!(refused(vec![swaps], &[(2, 0)], &[0]), (14, 0));
    }

    #[test]
    fn no_choice_after_the_end() {
        let exits = thread(&[(Store, 0), (Exit, 4)]);
        assert_eq!(refused(vec![exits], &[], &[0, 0, 128]), (12, 2));
        let halts = vec![thread(&[(Halt, 0)]), thread(&[(Halt, 0)])];
        let (ran, _) = run(halts.clone(), &[], &[1]).unwrap();
        assert_eq!(ran.end, End::Open);
        let (ran, _) = run(halts.clone(), &[], &[1, 0]).unwrap();
        assert_eq!(ran.end, End::Code(0));
        assert_eq!(refused(halts, &[], &[1, 0, 0]), (12, 2));
    }

    #[test]
    fn a_checkpoint_that_one_thread_never_reaches() {
        let threads = vec![
            thread(&[(Store, 0), (Check, 1), (Halt, 0)]),
            thread(&[(Halt, 0), (Check, 1), (Halt, 0)]),
        ];
        // Waiting does not forbid the flush; after it nothing is permitted.
        let (ran, _) = run(threads.clone(), &[], &[0, 0, 1]).unwrap();
        assert_eq!(ran.end, End::Open);
        let (ran, _) = run(threads.clone(), &[], &[0, 0, 1, 128]).unwrap();
        assert_eq!(ran.end, End::Stuck);
        assert_eq!(refused(threads, &[], &[0, 0, 0]), (12, 2));
    }

    #[test]
    fn a_check_in_the_clearing_step_marks() {
        let meets = thread(&[(Check, 2), (Jmp, 0)]);
        let again = thread(&[(Check, 2), (Check, 2), (Exit, 1)]);
        // Step 1 opens the checkpoint; step 2 clears it, and then its own CHECK marks thread 1,
        // which waits until thread 0 comes again.
        let threads = vec![meets, again];
        assert_eq!(refused(threads.clone(), &[], &[0, 1, 1, 1]), (12, 3));
        let (ran, _) = run(threads.clone(), &[], &[0, 1, 1, 0, 0, 1]).unwrap();
        assert_eq!(ran.end, End::Code(1));
        // The same where thread 0 clears.
        assert_eq!(refused(threads.clone(), &[], &[0, 1, 0, 1, 1]), (12, 4));
        // The mark of thread 0 is cleared too, although thread 1 is the one that arrives: it does not wait.
        let (ran, _) = run(threads, &[], &[0, 1, 1, 0]).unwrap();
        assert_eq!(ran.end, End::Open);
    }

    #[test]
    fn a_checkpoint_of_one_thread_never_waits() {
        // With the CHECK in the clearing step, and two steps after the one before.
        for statements in [
            [(Check, 2), (Check, 2), (Jmp, 0)],
            [(Check, 2), (Jmp, 0), (Halt, 0)],
        ] {
            let (ran, _) = run(vec![thread(&statements)], &[], &[0; 9]).unwrap();
            assert_eq!(ran.end, End::Open);
        }
    }

    #[test]
    fn a_check_of_another_number_in_the_clearing_step_marks() {
        let first = thread(&[(Check, 2), (Check, 3), (Exit, 1)]);
        let second = thread(&[(Check, 2), (Jmp, 1), (Check, 3), (Halt, 0)]);
        let threads = vec![first, second];
        assert_eq!(refused(threads, &[], &[0, 1, 0, 0]), (12, 3));
    }
}
