//! One call of the library beside the same call of the second simulator: the packed number, the
//! wrapper's answer, the trace, and every lent byte with the guards around it.

use reference::{End, Ran, Refusal};
use testing::{packed, Counts, Lent, Random};

pub struct Comparison {
    /// Printed on failure.
    pub seed: u64,
    pub counts: Counts,
    guards: Random,
}

type Answer = Result<Ran, Refusal>;

impl Comparison {
    pub fn new() -> Comparison {
        Comparison {
            seed: 0,
            counts: Counts::default(),
            guards: Random::new(0x6775_6172_6473),
        }
    }

    /// Compares a simulation with an output of `room` bytes.
    pub fn simulate(&mut self, set: &[u8], map: &[u8], schedule: &[u8], room: usize) -> Answer {
        let lent_set = Lent::new(&mut self.guards, set);
        let lent_map = Lent::new(&mut self.guards, map);
        let lent_schedule = Lent::new(&mut self.guards, schedule);
        let mut lent_trace = Lent::output(&mut self.guards, room);
        let mut expected = lent_trace.bytes().to_vec();
        let mut wrapped = expected.clone();

        let answer = reference::simulate(set, map, schedule, &mut expected);
        let trace = lent_trace.bytes_mut();
        // SAFETY: each pointer comes with its buffer's length.
        let number = unsafe {
            deepchalk::raw::deepchalk_simulate(
                lent_set.bytes().as_ptr(),
                set.len(),
                lent_map.bytes().as_ptr(),
                map.len(),
                lent_schedule.bytes().as_ptr(),
                schedule.len(),
                trace.as_mut_ptr(),
                trace.len(),
            )
        };
        let wrapped_answer = deepchalk::simulate(set, map, schedule, &mut wrapped);

        let inputs = [("set", set), ("map", map), ("schedule", schedule)];
        let agree = [
            ("packed answer", number == packed(answer)),
            ("wrapper", unwrapped(wrapped_answer) == answer),
            ("set as it was", lent_set.unchanged()),
            ("map as it was", lent_map.unchanged()),
            ("schedule as it was", lent_schedule.unchanged()),
            ("trace", lent_trace.holds(&expected)),
            ("wrapper's trace", wrapped == expected),
        ];
        self.demand(&agree, "simulate", &inputs, Some(room), number, answer);
        self.counts.simulate.add(answer);
        answer
    }

    /// Compares a replay.
    pub fn replay(&mut self, set: &[u8], map: &[u8], trace: &[u8]) -> Answer {
        let lent_set = Lent::new(&mut self.guards, set);
        let lent_map = Lent::new(&mut self.guards, map);
        let lent_trace = Lent::new(&mut self.guards, trace);

        let answer = reference::replay(set, map, trace);
        // SAFETY: each pointer comes with its buffer's length.
        let number = unsafe {
            deepchalk::raw::deepchalk_replay(
                lent_set.bytes().as_ptr(),
                set.len(),
                lent_map.bytes().as_ptr(),
                map.len(),
                lent_trace.bytes().as_ptr(),
                trace.len(),
            )
        };
        let wrapped_answer = deepchalk::replay(set, map, trace);

        let inputs = [("set", set), ("map", map), ("trace", trace)];
        let agree = [
            ("packed answer", number == packed(answer)),
            ("wrapper", unwrapped(wrapped_answer) == answer),
            ("set as it was", lent_set.unchanged()),
            ("map as it was", lent_map.unchanged()),
            ("trace as it was", lent_trace.unchanged()),
        ];
        self.demand(&agree, "replay", &inputs, None, number, answer);
        self.counts.replay.add(answer);
        answer
    }

    fn demand(
        &self,
        agree: &[(&str, bool)],
        call: &str,
        inputs: &[(&str, &[u8])],
        room: Option<usize>,
        number: u64,
        answer: Answer,
    ) {
        let wrong: Vec<&str> = agree
            .iter()
            .filter(|(_, holds)| !holds)
            .map(|&(what, _)| what)
            .collect();
        if wrong.is_empty() {
            return;
        }
        let inputs: Vec<String> = inputs
            .iter()
            .map(|(name, bytes)| format!("{name}: {}\n", hex(bytes)))
            .collect();
        panic!(
            "{call} differs in {wrong:?}\nseed: {}\n{}room: {room:?}\n\
             library: {number:#018x}\nsecond simulator: {:#018x}, {answer:?}",
            self.seed,
            inputs.concat(),
            packed(answer),
        );
    }
}

fn hex(bytes: &[u8]) -> String {
    bytes.iter().map(|byte| format!("{byte:02x}")).collect()
}

/// The wrapper's answer in the second simulator's types.
fn unwrapped(answer: Result<deepchalk::Ran, deepchalk::Refusal>) -> Answer {
    match answer {
        Ok(deepchalk::Ran { steps, end }) => {
            let end = match end {
                deepchalk::End::Code(code) => End::Code(code),
                deepchalk::End::Stuck => End::Stuck,
                deepchalk::End::Open => End::Open,
            };
            Ok(Ran { steps, end })
        }
        Err(refusal) => Err(Refusal {
            number: refusal.number(),
            place: refusal.place(),
        }),
    }
}
