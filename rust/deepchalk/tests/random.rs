//! The library against the second simulator on random sets, maps, schedules and damaged traces.
//! A failure prints its seed; DEEPCHALK_SEED=seed DEEPCHALK_INPUTS=1 makes that input again.

mod compare;

use compare::Comparison;
use reference::trace::STEP_BYTES;
use reference::{Ran, Refusal};
use testing::schedules::trace_of;
use testing::{damage, Input, Random};

const INPUTS: u64 = 40_000;

fn from_environment(name: &str) -> Option<u64> {
    let text = std::env::var(name).ok()?;
    Some(text.parse().expect("a decimal number"))
}

#[test]
fn library_and_second_simulator_agree() {
    let first = from_environment("DEEPCHALK_SEED").unwrap_or(1);
    let inputs = from_environment("DEEPCHALK_INPUTS").unwrap_or(INPUTS);
    let mut comparison = Comparison::new();
    for seed in first..first + inputs {
        comparison.seed = seed;
        let mut random = Random::new(seed);
        let input = Input::random(&mut random);
        comparison
            .counts
            .watch(&input.set, &input.map, &input.schedule);
        let ran = compare_simulations(&mut comparison, &mut random, &input);
        compare_replays(&mut comparison, &mut random, &input, ran);
    }

    let counts = &comparison.counts;
    println!(
        "{inputs} inputs from seed {first}: {} simulations, {} replays\n{}",
        counts.simulate.total(),
        counts.replay.total(),
        counts.table()
    );
    if inputs >= INPUTS {
        for (what, count) in counts.rows() {
            assert!(count > 0, "no input reached \"{what}\"");
        }
    }
}

/// With room enough, and sometimes with too little. Gives the answer with room enough.
fn compare_simulations(
    comparison: &mut Comparison,
    random: &mut Random,
    input: &Input,
) -> Result<Ran, Refusal> {
    let Input { set, map, schedule } = input;
    let needed = schedule.len() * STEP_BYTES;
    if random.chance(15) && needed > 0 {
        let any = random.below(needed);
        let room = random.pick(&[needed - 1, needed - 1, 0, any]);
        let _ = comparison.simulate(set, map, schedule, room);
    }
    let more = random.pick(&[0, 0, 1, 23, 24, 60]);
    comparison.simulate(set, map, schedule, needed + more)
}

/// The trace of the run, the trace damaged, and the trace over another map or set.
fn compare_replays(
    comparison: &mut Comparison,
    random: &mut Random,
    input: &Input,
    ran: Result<Ran, Refusal>,
) {
    let Input { set, map, schedule } = input;
    let trace = trace_of(set, map, schedule);
    let replayed = comparison.replay(set, map, &trace);
    if ran.is_ok() {
        assert_eq!(replayed, ran, "seed {}", comparison.seed);
    }
    for _ in 0..3 {
        let mut damaged = trace.clone();
        damage::trace(random, &mut damaged);
        let _ = comparison.replay(set, map, &damaged);
    }
    let mut other_map = map.clone();
    damage::map(random, &mut other_map);
    let _ = comparison.replay(set, &other_map, &trace);
    let mut other_set = set.clone();
    damage::set(random, &mut other_set);
    let _ = comparison.replay(&other_set, map, &trace);
    // Two faults in one replay, so that the order of refusals shows.
    let mut damaged = trace;
    damage::change_byte(random, &mut damaged);
    let _ = comparison.replay(set, &other_map, &damaged);
    let _ = comparison.replay(&other_set, map, &damaged);
}
