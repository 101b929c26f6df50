//! Document 002's litmus tests: which outcomes the machine allows, and that their tables say the
//! same.

use reference::litmus::{amd, faulty_counters, intel, valid_counters, Litmus, Sample};
use reference::records::set_bytes;
use reference::search::{longest_run, shortest_failing};
use reference::trace::MAX_STEPS;
use reference::{accept_set, Cell, Choice, End, Machine, Set};
use testing::assignments::{first_memory, of_run, run, Broken};
use testing::tables::Table;
use testing::Random;

fn all() -> Vec<Litmus> {
    let mut all = intel();
    all.extend(amd());
    all
}

fn set_of(sample: &Sample) -> Set {
    accept_set(&set_bytes(&sample.threads)).expect("an accepted set")
}

#[test]
fn longest_runs_are_document_002s_bounds() {
    for litmus in all() {
        let bare = litmus.bare();
        let set = set_of(&bare);
        let longest = longest_run(&set, &bare.map, MAX_STEPS);
        assert_eq!(longest, litmus.bound, "{}", litmus.name);
        let failing = shortest_failing(&set, &bare.map, longest);
        assert_eq!(failing, None, "{}", litmus.name);
    }
}

#[test]
fn outcomes_are_allowed_as_document_002_says() {
    for litmus in all() {
        let judged = litmus.judged();
        let set = set_of(&judged);
        let failing = shortest_failing(&set, &judged.map, litmus.judged_bound());
        assert_eq!(failing.is_some(), litmus.allowed, "{}", litmus.name);
        assert!(longest_run(&set, &judged.map, MAX_STEPS) <= litmus.judged_bound());
    }
}

/// The shortest failing run satisfies from its own length on; with a bound one less the goal is 0.
#[test]
fn tables_of_allowed_outcomes() {
    let mut random = Random::new(2);
    for litmus in all().into_iter().filter(|litmus| litmus.allowed) {
        let Sample { threads, map } = litmus.judged();
        let set = set_of(&litmus.judged());
        let run = shortest_failing(&set, &map, litmus.judged_bound());
        let run = run.expect("the outcome is allowed");
        let first = first_memory(&mut random, &map);
        for (bound, expected) in [
            (run.len() - 1, Some(Broken::Goal)),
            (run.len(), None),
            (litmus.judged_bound(), None),
            (64, None),
        ] {
            let table = Table::new(&threads, map.clone(), bound);
            let assignment = of_run(&run, threads.len(), bound, first.clone());
            assert_eq!(table.judge(&assignment), expected, "{}", litmus.name);
        }
    }
}

/// Random runs to their end: the table says of each what the machine says, and no run satisfies
/// where the outcome is not allowed.
#[test]
fn tables_of_random_runs() {
    let mut random = Random::new(3);
    for litmus in all() {
        let Sample { threads, map } = litmus.judged();
        let bound = litmus.judged_bound();
        let table = Table::new(&threads, map.clone(), bound);
        let mut satisfied = 0;
        for _ in 0..200 {
            let first = first_memory(&mut random, &map);
            let taken = run(&mut random, &table.set, &first, bound);
            let assignment = of_run(&taken, threads.len(), bound, first);
            satisfied += usize::from(table.judge(&assignment).is_none());
        }
        assert!(litmus.allowed || satisfied == 0, "{}", litmus.name);
    }
}

/// Counters of two and three threads with the checker: random runs, and for the faulty one of 2x2
/// the run in which one thread's store comes between the other's load and store.
#[test]
fn counters() {
    let mut random = Random::new(4);
    for counter in faulty_counters().into_iter().chain(valid_counters()) {
        let Sample { threads, map } = counter.sample;
        let bound = counter.bound.min(64);
        let table = Table::new(&threads, map.clone(), bound);
        for _ in 0..30 {
            let first = first_memory(&mut random, &map);
            let taken = run(&mut random, &table.set, &first, bound);
            let assignment = of_run(&taken, threads.len(), bound, first);
            let broken = table.judge(&assignment);
            assert!(broken.is_some() || counter.name.starts_with("faulty"));
        }
    }
    let counter = faulty_counters().swap_remove(0);
    let Sample { threads, map } = counter.sample;
    let set = accept_set(&set_bytes(&threads)).expect("an accepted set");
    let run = lost_increment(&set, &map);
    assert!(run.len() <= counter.bound);
    let table = Table::new(&threads, map.clone(), counter.bound);
    let assignment = of_run(&run, 3, counter.bound, first_memory(&mut random, &map));
    assert_eq!(table.judge(&assignment), None);
}

/// Thread 0 loads, thread 1 counts to its end, thread 0 goes on, the checker exits.
fn lost_increment(set: &Set, map: &[Cell]) -> Vec<Choice> {
    let mut machine = Machine::fresh(set, map.to_vec());
    let mut run = Vec::new();
    let mut take = |machine: &mut Machine, choice| {
        machine.step(choice).expect("the map has every cell read");
        run.push(choice);
    };
    take(&mut machine, Choice::Execute(0));
    for thread in [1, 0, 2] {
        loop {
            if machine.permitted(Choice::Flush(thread)) {
                take(&mut machine, Choice::Flush(thread));
            } else if machine.permitted(Choice::Execute(thread)) {
                take(&mut machine, Choice::Execute(thread));
            } else {
                break;
            }
        }
    }
    assert_eq!(machine.end(), End::Code(1));
    run
}
