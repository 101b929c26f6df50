//! The library's encoder against the second encoder: sizes, tables, refusals, and every lent byte
//! with the guards around it. A failure prints its seed.

use deepchalk::FORMULA_BYTES;
use reference::litmus::{amd, faulty_counters, intel, valid_counters, Sample};
use reference::records::{map_bytes, set_bytes};
use reference::Refusal;
use testing::inputs::set_and_map;
use testing::{damage, packed_table, sets, Lent, Random};

const INPUTS: u64 = 3_000;

type Answer = Result<u32, Refusal>;

struct Comparison {
    /// Printed on failure.
    seed: u64,
    guards: Random,
    /// How often each refusal came, and at 0 how often none did.
    answers: [usize; 18],
}

impl Comparison {
    fn new() -> Comparison {
        Comparison {
            seed: 0,
            guards: Random::new(0x6775_6172_6473),
            answers: [0; 18],
        }
    }

    /// The table's size by both.
    fn size(&mut self, set: &[u8], map: &[u8], bound: u64) -> Answer {
        let lent_set = Lent::new(&mut self.guards, set);
        let lent_map = Lent::new(&mut self.guards, map);
        let answer = reference::table_size(set, map, bound);
        // SAFETY: each pointer comes with its buffer's length.
        let number = unsafe {
            deepchalk::raw::deepchalk_table_size(
                lent_set.bytes().as_ptr(),
                set.len(),
                lent_map.bytes().as_ptr(),
                map.len(),
                bound,
            )
        };
        let wrapped = unwrapped(deepchalk::table_size(set, map, bound));
        self.demand(number == packed_table(answer), "packed size", bound);
        self.demand(wrapped == answer, "wrapper's size", bound);
        self.demand(lent_set.unchanged(), "set as it was", bound);
        self.demand(lent_map.unchanged(), "map as it was", bound);
        answer
    }

    /// The table by both, with an output of `room` bytes.
    fn encode(&mut self, set: &[u8], map: &[u8], bound: u64, room: usize) -> Answer {
        let lent_set = Lent::new(&mut self.guards, set);
        let lent_map = Lent::new(&mut self.guards, map);
        let mut lent_table = Lent::output(&mut self.guards, room);
        let mut expected = lent_table.bytes().to_vec();
        let mut wrapped = expected.clone();

        let answer = reference::encode(set, map, bound, &mut expected);
        let table = lent_table.bytes_mut();
        // SAFETY: each pointer comes with its buffer's length.
        let number = unsafe {
            deepchalk::raw::deepchalk_encode(
                lent_set.bytes().as_ptr(),
                set.len(),
                lent_map.bytes().as_ptr(),
                map.len(),
                bound,
                table.as_mut_ptr(),
                table.len(),
            )
        };
        let wrapped_answer = unwrapped(deepchalk::encode(set, map, bound, &mut wrapped));
        if let Some(record) = first_difference(lent_table.bytes(), &expected) {
            panic!("seed {}, K {bound}: record {record} differs", self.seed);
        }
        self.demand(number == packed_table(answer), "packed answer", bound);
        self.demand(wrapped_answer == answer, "wrapper", bound);
        self.demand(lent_set.unchanged(), "set as it was", bound);
        self.demand(lent_map.unchanged(), "map as it was", bound);
        self.demand(lent_table.holds(&expected), "table and guards", bound);
        self.demand(wrapped == expected, "wrapper's table", bound);
        self.answers[answer.map_or_else(|refusal| usize::from(refusal.number), |_| 0)] += 1;
        answer
    }

    /// With room to the byte, with a byte less, and with more.
    fn encode_around(&mut self, set: &[u8], map: &[u8], bound: u64) {
        let needed = self
            .size(set, map, bound)
            .map_or(0, |records| records as usize * FORMULA_BYTES);
        let _ = self.encode(set, map, bound, needed + 37);
        if needed > 0 {
            let _ = self.encode(set, map, bound, needed);
            let _ = self.encode(set, map, bound, needed - 1);
        }
    }

    fn demand(&self, holds: bool, what: &str, bound: u64) {
        assert!(holds, "seed {}, K {bound}: {what} differs", self.seed);
    }
}

fn first_difference(table: &[u8], expected: &[u8]) -> Option<usize> {
    let at = table.iter().zip(expected).position(|(a, b)| a != b)?;
    Some(at / FORMULA_BYTES)
}

/// The wrapper's answer in the second encoder's types.
fn unwrapped(answer: Result<u32, deepchalk::Refusal>) -> Answer {
    answer.map_err(|refusal| Refusal {
        number: refusal.number(),
        place: refusal.place(),
    })
}

fn bound(random: &mut Random) -> u64 {
    let beyond = [0, 65, 66, 256, 257, 1 << 32, (1 << 32) + 1, u64::MAX];
    match random.below(10) {
        0 => random.pick(&beyond),
        1 => random.number(),
        2..=7 => random.between(1, 16) as u64,
        _ => random.between(1, 64) as u64,
    }
}

#[test]
fn library_and_second_encoder_agree() {
    let mut comparison = Comparison::new();
    for seed in 1..=INPUTS {
        comparison.seed = seed;
        let mut random = Random::new(seed);
        let (set, map) = set_and_map(&mut random);
        let bound = bound(&mut random);
        let size = comparison.size(&set, &map, bound);
        let needed = size.map_or(0, |records| records as usize * FORMULA_BYTES);
        let more = random.pick(&[0, 0, 1, 15, 16, 60]);
        let _ = comparison.encode(&set, &map, bound, needed + more);
        if random.chance(15) {
            let any = random.below(needed + 1);
            let short = random.pick(&[needed.saturating_sub(1), needed / 16, 0, any]);
            let _ = comparison.encode(&set, &map, bound, short);
        }
    }
    println!("answers by refusal: {:?}", comparison.answers);
    for number in [0, 9, 10, 11] {
        assert!(comparison.answers[number] > 50, "few answers {number}");
    }
}

#[test]
fn every_bound() {
    let mut comparison = Comparison::new();
    for seed in 1..=6 {
        comparison.seed = seed;
        let mut random = Random::new(seed);
        let set = set_bytes(&sets::threads(&mut random));
        let bounds = (0..=66).chain([1 << 8, 1 << 32, (1 << 32) + 1, u64::MAX]);
        for bound in bounds {
            comparison.encode_around(&set, &[3, 0, 1, 0], bound);
        }
    }
}

/// Each byte of small set and map records changed to every value: 9 comes before 10 and 11.
#[test]
fn damaged_records() {
    let mut comparison = Comparison::new();
    let set = [0, 10, 0, 0, 1, 0, 0, 0, 0, 17, 0, 0, 0, 0, 1, 0];
    let map = [1, 0, 5, 0, 2, 0, 6, 0];
    let room = 40 * FORMULA_BYTES;
    for value in 0..=255 {
        for at in 0..set.len() {
            let mut changed = set;
            changed[at] = value;
            let _ = comparison.encode(&changed, &map, 1, 3_000);
            let _ = comparison.encode(&changed, &map, 65, room);
        }
        for at in 0..map.len() {
            let mut changed = map;
            changed[at] = value;
            let _ = comparison.encode(&set, &changed, 1, 3_000);
            let _ = comparison.encode(&set, &changed, 0, room);
        }
    }
    let mut random = Random::new(5);
    for _ in 0..2_000 {
        let mut set = set_bytes(&sets::threads(&mut random));
        damage::bytes(&mut random, &mut set);
        let _ = comparison.size(&set, &map, 1);
    }
}

#[test]
fn litmus_tests_and_counters() {
    let mut comparison = Comparison::new();
    let litmus = intel().into_iter().chain(amd());
    let mut samples: Vec<(Sample, usize)> = Vec::new();
    for litmus in litmus {
        samples.push((litmus.bare(), litmus.bound));
        samples.push((litmus.judged(), litmus.judged_bound()));
    }
    for counter in faulty_counters().into_iter().chain(valid_counters()) {
        samples.push((counter.sample, counter.bound.min(64)));
    }
    for (sample, bound) in samples {
        let (set, map) = (set_bytes(&sample.threads), map_bytes(&sample.map));
        comparison.encode_around(&set, &map, bound as u64);
    }
}

#[test]
fn empty_buffers() {
    let mut comparison = Comparison::new();
    let halt = [0, 17, 0, 0, 0, 0, 0, 0];
    assert_eq!(comparison.encode(&[], &[], 1, 0), Err(Refusal::RECORDS));
    assert_eq!(comparison.encode(&halt, &[], 0, 0), Err(Refusal::BOUND));
    assert_eq!(comparison.encode(&halt, &[], 1, 0), Err(Refusal::ROOM));
}
