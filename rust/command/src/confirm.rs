//! The library's word on a run that a solver or the search gave: model check, decoding, replay.

use crate::failure::of_table;
use crate::set::Given;
use deepchalk::{End, FailingRun};
use reference::decode::FirstCells;
use reference::{Cell, Choice, Machine, Memory, Model};

/// The run as the library has it: its model passes the check, decodes, and the trace replays to a code
/// other than 0. Else why not.
pub fn confirmed(
    given: &Given,
    bound: u64,
    run: &[Choice],
    cells: &[Cell],
) -> Result<(FailingRun, End), String> {
    let model = model(given, bound, run, cells).bytes();
    let refused = |what: &'static str| {
        move |refusal| format!("{what}: {}", of_table(&given.set, bound, refusal))
    };
    let checked = given.set.check(bound, &model);
    checked.map_err(refused("the model check says"))?;
    let failing = given.set.decode(bound, &model);
    let failing = failing.map_err(refused("decoding says"))?;
    let ran = given.set.replay_over(&failing.map, &failing.trace);
    let ran = ran.map_err(refused("replay says"))?;
    match ran.end {
        End::Code(0) | End::Stuck | End::Open => Err(format!("it replays to {}", ran.end)),
        end => Ok((failing, end)),
    }
}

/// The run's model. It lists the set's cells and the first cells that the run reads: a solver may
/// name more than a model can hold, in statements that do not run.
fn model(given: &Given, bound: u64, run: &[Choice], cells: &[Cell]) -> Model {
    let mut machine = Machine::start(&given.statements, Memory::full(cells.to_vec()));
    let mut firsts = FirstCells::new(&given.map);
    for &choice in run {
        if !machine.permitted(choice) {
            // No run: the model check will say so.
            break;
        }
        firsts.step(&mut machine, choice);
    }
    let threads = given.statements.threads.len();
    Model::of_run(run, threads, bound as usize, firsts.cells())
}

#[cfg(test)]
mod tests {
    use super::*;
    use std::ops::Range;

    fn given(text: &str) -> Given {
        Given::of(deepchalk::Set::read(text.as_bytes()).unwrap())
    }

    fn cells(addresses: Range<u16>) -> Vec<Cell> {
        let cell = |address| Cell { address, value: 1 };
        addresses.map(cell).collect()
    }

    /// A solver may name more cells than a model can list.
    #[test]
    fn a_model_lists_what_its_run_reads() {
        let given = given("LOAD [9]\nSTORE 3\nLOAD 3\nEXIT 1\nLOAD 4\nHALT\n.\n2 1\n");
        let run = [Choice::Execute(0); 4];
        let model = model(&given, 6, &run, &cells(0..2_000));
        let listed: Vec<u16> = model.cells.iter().map(|cell| cell.address).collect();
        assert_eq!(listed, [1, 2, 9]);
        let (failing, end) = confirmed(&given, 6, &run, &cells(0..2_000)).unwrap();
        assert_eq!((failing.trace.len() / 24, end), (4, End::Code(1)));
    }

    #[test]
    fn what_is_no_failing_run_is_refused() {
        let given = given("LOAD 9\nEXIT 0\n.\n");
        for run in [
            &[Choice::Flush(0)][..],
            &[Choice::Execute(0); 2],
            &[Choice::Execute(0); 1],
            &[],
        ] {
            let why = confirmed(&given, 6, run, &[]).unwrap_err();
            assert!(
                why.starts_with("the model check says: refused 16: "),
                "{why}"
            );
        }
    }
}
