//! The stores that wait in buffers: from which step to which, and whose loads they miss.

use super::effects::{Effect, Stored};
use reference::trace::Step;

pub struct Waiting {
    pub thread: u8,
    pub store: Stored,
    /// The step of the STORE.
    pub from: usize,
    /// The step of the flush, if there is one.
    pub until: Option<usize>,
}

impl Waiting {
    fn covers(&self, at: usize) -> bool {
        self.from < at && self.until.is_none_or(|until| at < until)
    }
}

pub fn waiting(steps: &[Option<Step>], effects: &[Effect]) -> Vec<Waiting> {
    let mut all = Vec::new();
    for (from, (step, effect)) in steps.iter().zip(effects).enumerate() {
        let (Some(step), Some(store)) = (step, effect.stored) else {
            continue;
        };
        let later = steps.iter().enumerate().skip(from + 1);
        let mut own = later.filter_map(|(at, later)| later.map(|later| (at, later)));
        let flush = own.find(|(_, later)| later.thread == step.thread && later.statement.is_none());
        all.push(Waiting {
            thread: step.thread,
            store,
            from,
            until: flush.map(|(at, _)| at),
        });
    }
    all
}

/// The indexes of other threads' stores to this address that wait in their buffers during the step.
pub fn missed(
    waiting: &[Waiting],
    at: usize,
    thread: u8,
    address: Option<u16>,
) -> impl Iterator<Item = usize> + '_ {
    let missed = move |other: &Waiting| {
        let same = address.is_some() && other.store.address == address;
        same && other.thread != thread && other.covers(at)
    };
    let indexes = 0..waiting.len();
    indexes.filter(move |&index| missed(&waiting[index]))
}
