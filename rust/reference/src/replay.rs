//! Replay: a trace is compared, step by step, with the run that its choices make.

use crate::records::MAX_GIVEN_MAP;
use crate::trace::{choice_of, trace_step, MAX_STEPS, STEP_BYTES};
use crate::{accept_map, accept_set, Machine, Ran, Refusal};

pub fn replay(set: &[u8], map: &[u8], trace: &[u8]) -> Result<Ran, Refusal> {
    let set = accept_set(set)?;
    let map = accept_map(map, MAX_GIVEN_MAP)?;
    let steps = trace.chunks_exact(STEP_BYTES);
    let count = steps.len();
    if !steps.remainder().is_empty() || count > MAX_STEPS {
        return Err(Refusal::LENGTH);
    }

    let mut machine = Machine::fresh(&set, map);
    for (step, given) in steps.enumerate() {
        let choice = choice_of(given);
        if !machine.permitted(choice) {
            return Err(Refusal::not_permitted(step));
        }
        if trace_step(&machine, choice) != given {
            return Err(Refusal::differs(step));
        }
        machine
            .step(choice)
            .map_err(|_| Refusal::lacks_cell(step))?;
    }
    Ok(Ran {
        steps: count as u16,
        end: machine.end(),
    })
}

#[cfg(test)]
mod tests {
    use super::*;
    use crate::records::{map_bytes, set_bytes};
    use crate::{simulate, Cell, End, Instruction::*, Statement};

    /// Map 4→9, and a run of seven steps with a CAS that matches, a STORE, a forwarded LOAD and a
    /// flush.
    fn sample() -> (Vec<u8>, Vec<u8>, Vec<u8>) {
        let set = set_bytes(&[vec![
            Statement::new(Mem, 4),
            Statement::new(Addi, 1),
            Statement::new(Cas, 4),
            Statement::new(Store, 5),
            Statement::indirect(Load, 5),
            Statement::new(Halt, 0),
        ]]);
        let map = map_bytes(&[
            Cell {
                address: 1,
                value: 6,
            },
            Cell {
                address: 4,
                value: 9,
            },
        ]);
        let schedule = [0, 0, 0, 0, 0, 128, 0];
        let mut trace = vec![0; schedule.len() * STEP_BYTES];
        let ran = simulate(&set, &map, &schedule, &mut trace).unwrap();
        assert_eq!(ran.end, End::Code(0));
        (set, map, trace)
    }

    #[test]
    fn a_written_trace_and_its_beginnings_replay() {
        let (set, map, trace) = sample();
        for length in 0..=trace.len() {
            let answer = replay(&set, &map, &trace[..length]);
            if length % STEP_BYTES != 0 {
                assert_eq!(answer, Err(Refusal::LENGTH));
            } else {
                let steps = length / STEP_BYTES;
                let end = if steps == 7 { End::Code(0) } else { End::Open };
                let steps = steps as u16;
                assert_eq!(answer, Ok(Ran { steps, end }));
            }
        }
    }

    #[test]
    fn every_byte_of_every_step_is_compared() {
        let (set, map, trace) = sample();
        for at in 0..trace.len() {
            let mut damaged = trace.clone();
            damaged[at] = damaged[at].wrapping_add(1);
            let step = at / STEP_BYTES;
            let refusal = replay(&set, &map, &damaged).unwrap_err();
            // Another thread cannot be chosen here, nor can a flush's number be changed for an
            // execute that HALT's full buffer forbids.
            let choice_changed = at % STEP_BYTES == 0 || at == 5 * STEP_BYTES + 1;
            let number = if choice_changed { 12 } else { 13 };
            assert_eq!((refusal.number, refusal.place), (number, step as u32));
        }
    }

    #[test]
    fn a_thread_byte_of_128_is_no_flush() {
        let (set, map, mut trace) = sample();
        for (thread, number) in [(128, 20), (128, 18), (1, 20), (255, 20)] {
            trace[5 * STEP_BYTES] = thread;
            trace[5 * STEP_BYTES + 1] = number;
            let answer = replay(&set, &map, &trace);
            assert_eq!(answer, Err(Refusal::not_permitted(5)));
        }
    }

    #[test]
    fn a_differing_field_comes_before_a_lacking_cell() {
        let (set, _, mut trace) = sample();
        assert_eq!(replay(&set, &[], &trace), Err(Refusal::lacks_cell(0)));
        trace[23] = 1;
        assert_eq!(replay(&set, &[], &trace), Err(Refusal::differs(0)));
    }

    #[test]
    fn traces_of_64_and_65_steps() {
        let set = set_bytes(&[vec![Statement::new(Jmp, 0)]]);
        let mut trace = vec![0; 64 * STEP_BYTES];
        let ran = simulate(&set, &[], &[0; 64], &mut trace).unwrap();
        assert_eq!(replay(&set, &[], &trace), Ok(ran));
        trace.extend_from_within(..STEP_BYTES);
        assert_eq!(replay(&set, &[], &trace), Err(Refusal::LENGTH));
    }
}
