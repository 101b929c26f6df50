//! The library's model check and decoding against the second ones: answers with their places, traces,
//! maps, work memory, and every lent byte with the guards around it. A failure prints its seed.

use deepchalk::{MAP_ROOM, STEP_BYTES};
use reference::litmus::faulty_counters;
use reference::records::{map_bytes, set_bytes};
use reference::Refusal;
use testing::models::{failing, Failing, ModelInput};
use testing::{packed_check, Lent, Random};

const RUNS: u64 = 2_600;
const MODELS_OF_A_RUN: usize = 4;

type Answer = Result<(), Refusal>;

/// Lengths of work memory, trace and map.
#[derive(Clone, Copy, Debug)]
struct Rooms {
    work: usize,
    trace: usize,
    map: usize,
}

impl Rooms {
    fn needed(input: &ModelInput) -> Rooms {
        Rooms {
            work: input.work_needed(),
            trace: input.bound.min(64) as usize * STEP_BYTES,
            map: MAP_ROOM,
        }
    }

    /// Work memory of a little more than needed, sometimes of much more.
    fn longer(self, random: &mut Random) -> Rooms {
        Rooms {
            work: self.work + random.pick(&[0, 1, 31, 32, 33, 1_000, 40_000]),
            trace: self.trace + random.pick(&[0, 0, 1, 24, 60]),
            map: self.map + random.pick(&[0, 0, 1, 4, 60]),
        }
    }

    /// One of them is short.
    fn short(self, random: &mut Random) -> Rooms {
        let mut rooms = self.longer(random);
        let (length, needed) = match random.below(3) {
            0 => (&mut rooms.work, self.work),
            1 => (&mut rooms.trace, self.trace),
            _ => (&mut rooms.map, self.map),
        };
        *length = random.pick(&[needed.saturating_sub(1), needed / 2, 0]);
        rooms
    }
}

/// An input between guards.
struct Inputs {
    set: Lent,
    map: Lent,
    model: Lent,
}

struct Comparison {
    /// Printed on failure.
    seed: u64,
    guards: Random,
    /// How often each refusal came, and at 0 how often none did.
    answers: [usize; 18],
}

impl Comparison {
    fn new() -> Comparison {
        Comparison {
            seed: 0,
            guards: Random::new(0x6775_6172_6473),
            answers: [0; 18],
        }
    }

    fn lend(&mut self, input: &ModelInput) -> Inputs {
        Inputs {
            set: Lent::new(&mut self.guards, &input.set),
            map: Lent::new(&mut self.guards, &input.map),
            model: Lent::new(&mut self.guards, &input.model),
        }
    }

    /// Both calls with these rooms; the answer is decoding's.
    fn both(&mut self, input: &ModelInput, rooms: Rooms) -> Answer {
        let checked = self.check(input, rooms.work);
        let answer = self.decode(input, rooms).map(|_| ());
        // The model check does not ask for outputs.
        self.demand(
            answer == checked || answer == Err(Refusal::ROOM),
            "check beside decode",
        );
        self.answers[answer.map_or_else(|refusal| usize::from(refusal.number), |()| 0)] += 1;
        answer
    }

    fn check(&mut self, input: &ModelInput, room: usize) -> Answer {
        let lent = self.lend(input);
        let mut work = Lent::output(&mut self.guards, room);
        let mut expected = work.bytes().to_vec();
        let mut wrapped = expected.clone();
        let ModelInput {
            set,
            map,
            bound,
            model,
        } = input;
        let answer = reference::check(set, map, *bound, model, &mut expected);
        let lent_work = work.bytes_mut();
        // SAFETY: each pointer comes with its buffer's length.
        let number = unsafe {
            deepchalk::raw::deepchalk_check(
                lent.set.bytes().as_ptr(),
                set.len(),
                lent.map.bytes().as_ptr(),
                map.len(),
                *bound,
                lent.model.bytes().as_ptr(),
                model.len(),
                lent_work.as_mut_ptr(),
                lent_work.len(),
            )
        };
        let given = deepchalk::check(set, map, *bound, model, &mut wrapped);
        self.demand(number == packed_check(answer), "packed answer of check");
        self.demand(given.map_err(second) == answer, "wrapper's check");
        self.demand(lent.unchanged(), "inputs of check");
        self.demand(work.holds(&expected), "work memory of check");
        self.demand(wrapped == expected, "wrapper's work memory of check");
        answer
    }

    fn decode(&mut self, input: &ModelInput, rooms: Rooms) -> Result<reference::Decoded, Refusal> {
        let lent = self.lend(input);
        let mut outputs =
            [rooms.work, rooms.trace, rooms.map].map(|room| Lent::output(&mut self.guards, room));
        let mut expected = [0, 1, 2].map(|at| outputs[at].bytes().to_vec());
        let mut wrapped = expected.clone();
        let ModelInput {
            set,
            map,
            bound,
            model,
        } = input;
        let [work, trace, cells] = &mut expected;
        let answer = reference::decode(set, map, *bound, model, work, trace, cells);
        let [work, trace, cells] = outputs.each_mut().map(Lent::bytes_mut);
        // SAFETY: each pointer comes with its buffer's length.
        let number = unsafe {
            deepchalk::raw::deepchalk_decode(
                lent.set.bytes().as_ptr(),
                set.len(),
                lent.map.bytes().as_ptr(),
                map.len(),
                *bound,
                lent.model.bytes().as_ptr(),
                model.len(),
                work.as_mut_ptr(),
                work.len(),
                trace.as_mut_ptr(),
                trace.len(),
                cells.as_mut_ptr(),
                cells.len(),
            )
        };
        let [work, trace, cells] = &mut wrapped;
        let given = deepchalk::decode(set, map, *bound, model, work, trace, cells);
        let given = given
            .map(|deepchalk::Decoded { steps, cells }| reference::Decoded { steps, cells })
            .map_err(second);
        let packed = testing::packed_decode(answer);
        self.demand(number == packed, "packed answer of decode");
        self.demand(given == answer, "wrapper's decode");
        self.demand(lent.unchanged(), "inputs of decode");
        for (at, what) in ["work memory", "trace", "map"].iter().enumerate() {
            self.demand(outputs[at].holds(&expected[at]), what);
            self.demand(wrapped[at] == expected[at], what);
        }
        answer
    }

    fn demand(&self, holds: bool, what: &str) {
        assert!(holds, "seed {}: {what} differs", self.seed);
    }
}

impl Inputs {
    fn unchanged(&self) -> bool {
        [&self.set, &self.map, &self.model]
            .iter()
            .all(|lent| lent.unchanged())
    }
}

/// The wrapper's refusal in the second decoder's type.
fn second(refusal: deepchalk::Refusal) -> Refusal {
    Refusal {
        number: refusal.number(),
        place: refusal.place(),
    }
}

#[test]
fn library_and_second_decoder_agree() {
    let mut comparison = Comparison::new();
    for seed in 1..=RUNS {
        comparison.seed = seed;
        let mut random = Random::new(seed);
        let found = failing(&mut random);
        for _ in 0..MODELS_OF_A_RUN {
            let input = ModelInput::random(&mut random, &found);
            let needed = Rooms::needed(&input);
            let rooms = if random.chance(10) {
                needed.short(&mut random)
            } else {
                needed.longer(&mut random)
            };
            let _ = comparison.both(&input, rooms);
        }
    }
    println!("answers by refusal: {:?}", comparison.answers);
    assert!(comparison.answers.iter().sum::<usize>() >= 10_000);
    for number in [0, 9, 10, 11, 15, 16] {
        assert!(comparison.answers[number] > 50, "few answers {number}");
    }
}

/// The decoded trace replays over the decoded map, by the library alone.
#[test]
fn decoded_traces_replay() {
    use deepchalk::CELL_BYTES;
    use reference::{End, Ran};
    for seed in 1..=500 {
        let mut random = Random::new(seed);
        let found = failing(&mut random);
        let input = ModelInput::of(&found);
        let rooms = Rooms::needed(&input);
        let mut work = vec![0xa5; rooms.work];
        let mut trace = vec![0xa5; rooms.trace];
        let mut cells = vec![0xa5; rooms.map];
        let decoded = deepchalk::decode(
            &input.set,
            &input.map,
            input.bound,
            &input.model,
            &mut work,
            &mut trace,
            &mut cells,
        )
        .expect("accepted");
        assert_eq!(usize::from(decoded.steps), found.run.len());
        trace.truncate(found.run.len() * STEP_BYTES);
        cells.truncate(usize::from(decoded.cells) * CELL_BYTES);
        let ran = deepchalk::replay(&input.set, &cells, &trace).expect("a trace");
        assert_eq!(ran.steps, decoded.steps);
        assert!(matches!(ran.end, deepchalk::End::Code(code) if code != 0));
        let second = reference::replay(&input.set, &cells, &trace);
        let Ok(Ran {
            end: End::Code(code),
            ..
        }) = second
        else {
            panic!("seed {seed}: {second:?}");
        };
        assert_eq!(ran.end, deepchalk::End::Code(code));
    }
}

/// Each byte of a small model changed to every value, and each length of it.
#[test]
fn every_byte_of_a_model() {
    let mut comparison = Comparison::new();
    let mut random = Random::new(3);
    let mut small = failing(&mut random);
    while small.model.bytes().len() > 60 || small.model.cells.len() < 2 {
        small = failing(&mut random);
    }
    let input = ModelInput::of(&small);
    let rooms = Rooms::needed(&input);
    for at in 0..input.model.len() {
        for value in 0..=255 {
            let mut changed = input.clone();
            changed.model[at] = value;
            let _ = comparison.both(&changed, rooms);
        }
    }
    for length in 0..input.model.len() {
        let mut shorter = input.clone();
        shorter.model.truncate(length);
        let _ = comparison.both(&shorter, rooms);
    }
}

/// Work memory of every length around the one that is needed.
#[test]
fn work_memory_around_its_length() {
    let mut comparison = Comparison::new();
    let mut random = Random::new(5);
    for _ in 0..20 {
        let input = ModelInput::of(&failing(&mut random));
        let needed = Rooms::needed(&input);
        for length in needed.work - 34..needed.work + 34 {
            let answer = comparison.both(
                &input,
                Rooms {
                    work: length,
                    ..needed
                },
            );
            assert_eq!(answer.is_ok(), length >= needed.work);
        }
    }
}

/// Bounds of any size, with a model for the largest one.
#[test]
fn every_bound() {
    let mut comparison = Comparison::new();
    let mut random = Random::new(6);
    let Failing { threads, map, .. } = failing(&mut random);
    for bound in (0..=66).chain([255, 256, 1 << 32, (1 << 32) + 1, u64::MAX]) {
        let input = ModelInput {
            set: set_bytes(&threads),
            map: map_bytes(&map),
            bound,
            model: vec![0; 2 * threads.len() * bound.min(64) as usize],
        };
        let _ = comparison.both(&input, Rooms::needed(&input));
    }
}

/// A table of three threads for K 45: no bit set, so that step 0 breaks it.
#[test]
fn a_larger_table() {
    let mut comparison = Comparison::new();
    let counter = faulty_counters().swap_remove(0);
    let input = ModelInput {
        set: set_bytes(&counter.sample.threads),
        map: map_bytes(&counter.sample.map),
        bound: counter.bound as u64,
        model: [vec![0; 6 * counter.bound], map_bytes(&counter.sample.map)].concat(),
    };
    let answer = comparison.both(&input, Rooms::needed(&input));
    assert!(matches!(answer, Err(refusal) if refusal.number == 16));
}

#[test]
fn empty_buffers() {
    let mut comparison = Comparison::new();
    let rooms = Rooms {
        work: 0,
        trace: 0,
        map: 0,
    };
    let mut input = ModelInput {
        set: vec![],
        map: vec![],
        bound: 1,
        model: vec![],
    };
    assert_eq!(comparison.both(&input, rooms), Err(Refusal::RECORDS));
    input.set = vec![0, 17, 0, 0, 0, 0, 0, 0];
    assert_eq!(comparison.both(&input, rooms), Err(Refusal::MODEL));
    input.model = vec![0; 2];
    assert_eq!(comparison.both(&input, rooms), Err(Refusal::ROOM));
    input.bound = 0;
    assert_eq!(comparison.both(&input, rooms), Err(Refusal::BOUND));
}
