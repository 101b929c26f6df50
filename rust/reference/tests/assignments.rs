//! Tables against the machine: random sets, bounds and first memories, assignments of runs and
//! damaged ones. The first constraint or goal that is 0 is the one that the machine's answer names.
//! A failure prints its seed; DEEPCHALK_SEED=seed DEEPCHALK_INPUTS=1 makes that set again.

use reference::encode::{records, step_records, MAX_BOUND};
use reference::records::MAX_SET_MAP;
use std::collections::BTreeMap;
use std::ops::Range;
use testing::assignments::{damage, first_memory, of_run, run, Broken, Damage};
use testing::judged::{judged, Judged};
use testing::tables::Table;
use testing::{maps, sets, Random};

const INPUTS: u64 = 2_500;

fn from_environment(name: &str) -> Option<u64> {
    let text = std::env::var(name).ok()?;
    Some(text.parse().expect("a decimal number"))
}

fn table(random: &mut Random) -> Table {
    let threads = sets::some_exiting(random);
    let mut map = maps::cells(random);
    map.truncate(random.pick(&[2, 20, MAX_SET_MAP]));
    let longest = random.pick(&[1, 4, 16, 32, MAX_BOUND as usize]);
    let bound = random.between(1, longest);
    Table::new(&threads, map, bound)
}

/// How many assignments, by how they were made, broke what.
#[derive(Default)]
struct Counts(BTreeMap<String, usize>);

impl Counts {
    fn add(&mut self, made: &str, broken: Option<Broken>) {
        let answer = match broken {
            None => "satisfies",
            Some(Broken::Cell(_)) => "map constraint",
            Some(Broken::Step(_)) => "step's constraint",
            Some(Broken::Goal) => "goal",
        };
        *self.0.entry(format!("{made}: {answer}")).or_default() += 1;
    }

    /// Prints the counts; each of these must have occurred.
    fn demand(&self, at_least: usize, each: &[&str]) {
        for (what, count) in &self.0 {
            println!("{count:>10}  {what}");
        }
        assert!(self.0.values().sum::<usize>() >= at_least);
        for &what in each {
            assert!(self.0.contains_key(what), "no assignment was \"{what}\"");
        }
    }
}

#[test]
fn tables_mean_the_machine() {
    let first_seed = from_environment("DEEPCHALK_SEED").unwrap_or(1);
    let inputs = from_environment("DEEPCHALK_INPUTS").unwrap_or(INPUTS);
    let mut counts = Counts::default();
    for seed in first_seed..first_seed + inputs {
        let mut random = Random::new(seed);
        let mut table = table(&mut random);
        table.seed = seed;
        judge_runs(&mut random, &table, &mut counts);
    }
    if inputs < INPUTS {
        return;
    }
    counts.demand(
        10_000,
        &[
            "run: satisfies",
            "run: goal",
            "run: step's constraint",
            "NoBit: step's constraint",
            "TwoBits: step's constraint",
            "OtherBit: step's constraint",
            "OtherBit: satisfies",
            "BitAfterTheRun: step's constraint",
            "AnyBit: step's constraint",
            "RandomRows: step's constraint",
            "OtherCell: map constraint",
            "OtherCell: satisfies",
            "MapCell: map constraint",
        ],
    );
}

/// Runs over one first memory, each also damaged once and twice.
fn judge_runs(random: &mut Random, table: &Table, counts: &mut Counts) {
    let (threads, bound) = (table.set.threads.len(), table.bound);
    let first = first_memory(random, &table.map);
    for _ in 0..3 {
        let taken = run(random, &table.set, &first, bound);
        let mut assignment = of_run(&taken, threads, bound, first.clone());
        counts.add("run", table.judge(&assignment));
        let kind = random.pick(&Damage::ALL);
        damage(random, kind, taken.len(), &table.map, &mut assignment);
        counts.add(&format!("{kind:?}"), table.judge(&assignment));
        let other = random.pick(&Damage::ALL);
        damage(random, other, taken.len(), &table.map, &mut assignment);
        counts.add("damaged twice", table.judge(&assignment));
    }
}

/// Sets whose code depends on a word: the run that they were made from satisfies, and other runs and
/// other first memories do exactly where the machine says so.
#[test]
fn words_decide_the_code() {
    let mut counts = Counts::default();
    for seed in 1..=INPUTS {
        let mut random = Random::new(seed);
        if let Some(judged) = judged(&mut random) {
            judge_words(&mut random, seed, judged, &mut counts);
        }
    }
    counts.demand(
        5_000,
        &[
            "same run: satisfies",
            "another cell: satisfies",
            "another cell: goal",
            "another run: satisfies",
            "another run: goal",
        ],
    );
}

fn judge_words(random: &mut Random, seed: u64, judged: Judged, counts: &mut Counts) {
    let (threads, found) = (judged.threads.len(), judged.run);
    let bound = random.between(found.len(), found.len() + 4);
    let mut table = Table::new(&judged.threads, judged.map, bound);
    table.seed = seed;
    let assignment = of_run(&found, threads, bound, judged.first.clone());
    let broken = table.judge(&assignment);
    assert_eq!(broken, None, "seed {seed}");
    counts.add("same run", broken);
    for _ in 0..2 {
        let mut other = assignment.clone();
        damage(random, Damage::OtherCell, 0, &table.map, &mut other);
        counts.add("another cell", table.judge(&other));
        let taken = run(random, &table.set, &judged.first, bound);
        let other = of_run(&taken, threads, bound, judged.first.clone());
        counts.add("another run", table.judge(&other));
    }
}

/// Growth is linear in K: each step has the same records, but for what they refer to.
#[test]
fn each_step_adds_the_same() {
    let mut random = Random::new(7);
    for _ in 0..50 {
        let table = table(&mut random);
        let step = step_records(&table.set);
        let of = |bound| records(&table.set, table.map.len(), bound);
        assert!((1..64).all(|bound| of(bound + 1) - of(bound) == step));
        let table = Table::new(&table.set.threads, table.map, MAX_BOUND as usize);
        let operations = |part: &Range<usize>| -> Vec<(u8, u8)> {
            let records = &table.formulas[part.start..part.start + step];
            records.iter().map(|f| (f.operation, f.sort)).collect()
        };
        let first = operations(&table.parts.steps[0]);
        let mut steps = table.parts.steps.iter();
        assert!(steps.all(|part| operations(part) == first));
    }
}
