//! Timings of a call of the library and of the second implementation, taken in turn.

use std::hint::black_box;
use std::time::{Duration, Instant};

/// Timings of each call; medians are reported.
pub const TIMINGS: usize = 201;
/// One timing makes as many calls as take about this long: short, so that other work on the machine
/// seldom falls into it.
const TIMING: Duration = Duration::from_micros(300);

/// The second implementation allocates, the library does not. The allocator keeps freed memory for later
/// calls only after it has freed a large piece once; without this the first rows would be slower.
pub fn settle_allocator() {
    drop(black_box(vec![1_u8; 31 << 20]));
}

/// What both must answer: a number that tells answers apart, or the refusal's number and place.
pub type Answer = Result<u64, (u8, u32)>;

/// Nanoseconds of one call of each, and the ratio: the median over neighbours, since the processor's
/// speed changes.
pub struct Times {
    pub library: f64,
    pub second: f64,
    pub ratio: f64,
}

pub fn side_by_side(
    mut library: impl FnMut() -> Answer,
    mut second: impl FnMut() -> Answer,
) -> Times {
    assert_eq!(library(), second());
    let calls = (calls_for(&mut library), calls_for(&mut second));
    let pairs = (0..TIMINGS).map(|_| {
        let library = nanoseconds(&mut library, calls.0);
        (library, nanoseconds(&mut second, calls.1))
    });
    let pairs: Vec<(f64, f64)> = pairs.collect();
    Times {
        library: median(pairs.iter().map(|pair| pair.0)),
        second: median(pairs.iter().map(|pair| pair.1)),
        ratio: median(pairs.iter().map(|pair| pair.0 / pair.1)),
    }
}

/// How many calls one timing makes.
fn calls_for(call: &mut impl FnMut() -> Answer) -> u32 {
    let mut calls = 1;
    while nanoseconds(call, calls) * f64::from(calls) < TIMING.as_nanos() as f64 {
        calls *= 2;
    }
    calls
}

fn nanoseconds(call: &mut impl FnMut() -> Answer, calls: u32) -> f64 {
    let start = Instant::now();
    for _ in 0..calls {
        let _ = black_box(call());
    }
    start.elapsed().as_nanos() as f64 / f64::from(calls)
}

fn median(timings: impl Iterator<Item = f64>) -> f64 {
    let mut timings: Vec<f64> = timings.collect();
    timings.sort_by(f64::total_cmp);
    timings[timings.len() / 2]
}
