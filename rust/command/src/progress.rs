//! Lines on standard error while long work goes on: soon where a person watches, else after some
//! seconds.

use std::io::{self, IsTerminal, Write};
use std::time::{Duration, Instant};

pub struct Progress {
    start: Instant,
    next: Duration,
    pause: Duration,
}

impl Progress {
    pub fn start() -> Progress {
        let (first, pause) = if io::stderr().is_terminal() {
            (1, 5)
        } else {
            (5, 30)
        };
        Progress {
            start: Instant::now(),
            next: Duration::from_secs(first),
            pause: Duration::from_secs(pause),
        }
    }

    /// Says what goes on, if it is time to.
    pub fn say(&mut self, what: impl FnOnce() -> String) {
        let elapsed = self.start.elapsed();
        if elapsed >= self.next {
            self.next = elapsed + self.pause;
            let line = format!("deepchalk: {} s: {}\n", elapsed.as_secs(), what());
            let _ = io::stderr().write_all(line.as_bytes());
        }
    }
}
