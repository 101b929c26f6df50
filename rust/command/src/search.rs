//! A breadth-first search over the machine's states, each kept once, for a shortest failing run.

use crate::progress::Progress;
use reference::{Cell, Choice, End, Machine, Memory, Report, Set};
use std::collections::{BTreeSet, HashSet};

/// What the search found out about the runs of at most a bound's steps.
#[derive(Debug, PartialEq, Eq)]
pub struct Searched {
    /// A shortest failing run, over a memory that has 0 in the cells that the map lacks.
    pub failing: Option<Vec<Choice>>,
    /// How many states were kept.
    pub states: usize,
    /// Cells read that the map lacks: other first values than 0 were not tried.
    pub lacking: BTreeSet<u16>,
    /// Whether the search stopped because there were too many states.
    pub stopped: bool,
}

impl Searched {
    /// Whether "none" speaks of all runs.
    pub fn complete(&self) -> bool {
        self.lacking.is_empty() && !self.stopped
    }
}

struct Search<'a> {
    map: &'a [Cell],
    limit: usize,
    seen: HashSet<Box<[u8]>>,
    /// For each state kept, the one before it and the schedule byte between them: not the whole run.
    parents: Vec<(u32, u8)>,
    lacking: BTreeSet<u16>,
}

/// A state of the last step reached, with its index.
type Reached<'a> = (u32, Machine<'a>);

/// Stops once it has kept `limit` states.
pub fn search(set: &Set, map: &[Cell], bound: usize, limit: usize) -> Searched {
    let mut progress = Progress::start();
    let start = Machine::start(set, Memory::full(map.to_vec()));
    let mut search = Search {
        map,
        limit,
        seen: HashSet::from([key(&start, map)]),
        parents: vec![(0, 0)],
        lacking: BTreeSet::new(),
    };
    let mut reached = vec![(0, start)];
    for step in 0..bound {
        let mut next = Vec::new();
        for (index, machine) in reached {
            let failing = search.expand(index, &machine, &mut next);
            if failing.is_some() || search.parents.len() >= limit {
                return search.ended(failing);
            }
            progress.say(|| format!("{} states within {step} steps", search.parents.len()));
        }
        reached = next;
    }
    search.ended(None)
}

impl<'a> Search<'a> {
    /// Adds the states one step on; the whole run where that step fails.
    fn expand(
        &mut self,
        index: u32,
        machine: &Machine<'a>,
        next: &mut Vec<Reached<'a>>,
    ) -> Option<Vec<Choice>> {
        for choice in machine.choices().filter(|&c| machine.permitted(c)) {
            let mut after = machine.clone();
            let report = after.step(choice).expect("the memory has every cell");
            self.note_lacking(machine, &report);
            match after.end() {
                End::Code(0) | End::Stuck => {}
                End::Code(_) => return Some(self.run_to(index, choice)),
                End::Open => {
                    if self.seen.insert(key(&after, self.map)) {
                        next.push((self.parents.len() as u32, after));
                        self.parents.push((index, choice.schedule_byte()));
                    }
                }
            }
        }
        None
    }

    fn note_lacking(&mut self, machine: &Machine, report: &Report) {
        let loads = [report.address_word, report.data_word];
        for loaded in loads.into_iter().flatten().filter(|l| !l.forwarded) {
            if !machine.memory().lists(loaded.address) {
                self.lacking.insert(loaded.address);
            }
        }
    }

    /// The run to this state and one choice more.
    fn run_to(&self, mut index: u32, last: Choice) -> Vec<Choice> {
        let mut run = vec![last];
        while index != 0 {
            let (before, byte) = self.parents[index as usize];
            run.push(Choice::from_schedule(byte));
            index = before;
        }
        run.reverse();
        run
    }

    fn ended(self, failing: Option<Vec<Choice>>) -> Searched {
        Searched {
            failing,
            states: self.parents.len(),
            lacking: self.lacking,
            stopped: self.parents.len() >= self.limit,
        }
    }
}

/// A state, as far as what follows depends on it: an empty buffer's adr and val, and the registers of
/// a thread that has halted, are left out. Of the cells those that differ from the map stand here.
fn key(machine: &Machine, map: &[Cell]) -> Box<[u8]> {
    let mut key = Vec::with_capacity(64);
    for thread in machine.threads() {
        let bits = [thread.full, thread.halted, thread.mark.is_some()];
        let flags = bits.iter().fold(0, |flags, &bit| flags * 2 + u8::from(bit));
        key.push(flags);
        let mut put = |word: u16| key.extend(word.to_le_bytes());
        if !thread.halted {
            put(thread.pc as u16);
            put(thread.accu);
            put(thread.mem);
        }
        if thread.full {
            put(thread.adr);
            put(thread.val);
        }
        thread.mark.into_iter().for_each(put);
    }
    let mut firsts = map.iter().peekable();
    for cell in machine.memory().cells() {
        let first = firsts.next_if(|first| first.address == cell.address);
        if first != Some(cell) {
            key.extend(cell.address.to_le_bytes());
            key.extend(cell.value.to_le_bytes());
        }
    }
    key.into()
}

#[cfg(test)]
mod tests {
    use super::*;
    use reference::litmus::{amd, intel};
    use reference::search::shortest_failing;
    use reference::{accept_set, records::set_bytes, Instruction::*, Statement};

    fn set(threads: &[Vec<Statement>]) -> Set {
        accept_set(&set_bytes(threads)).unwrap()
    }

    #[test]
    fn shortest_runs_of_the_litmus_tests() {
        for litmus in intel().iter().chain(&amd()) {
            let sample = litmus.judged();
            let (set, bound) = (set(&sample.threads), litmus.judged_bound());
            let searched = search(&set, &sample.map, bound, usize::MAX);
            let shortest = shortest_failing(&set, &sample.map, bound);
            let length = |run: &Option<Vec<Choice>>| run.as_ref().map(Vec::len);
            assert_eq!(length(&searched.failing), length(&shortest));
            assert_eq!(searched.failing.is_some(), litmus.allowed);
            assert!(searched.complete());
        }
    }

    #[test]
    fn cells_that_the_map_lacks() {
        // Fails only where cell 5 is not 0.
        let set = set(&[vec![
            Statement::new(Load, 5),
            Statement::new(Jz, 3),
            Statement::new(Exit, 1),
            Statement::new(Exit, 0),
        ]]);
        let searched = search(&set, &[], 9, usize::MAX);
        assert_eq!(searched.failing, None);
        assert_eq!(searched.lacking, BTreeSet::from([5]));
        assert!(!searched.complete());
        let map = |value| [Cell { address: 5, value }];
        assert!(search(&set, &map(0), 9, usize::MAX).complete());
        let found = search(&set, &map(1), 9, usize::MAX).failing;
        assert_eq!(found, Some(vec![Choice::Execute(0); 3]));
        // A bound too small for it.
        assert_eq!(search(&set, &map(1), 2, usize::MAX).failing, None);
    }

    #[test]
    fn a_written_cell_is_not_lacking() {
        let set = set(&[vec![
            Statement::new(Store, 5),
            Statement::new(Fence, 0),
            Statement::new(Load, 5),
            Statement::new(Halt, 0),
        ]]);
        assert!(search(&set, &[], 9, usize::MAX).complete());
    }

    #[test]
    fn it_stops_at_the_limit() {
        // Counts for ever: each state is new.
        let counting = [Statement::new(Addi, 1), Statement::new(Jmp, 0)];
        let set = set(&[counting.to_vec()]);
        let searched = search(&set, &[], 64, 10);
        assert!(searched.stopped && searched.failing.is_none());
        assert_eq!(searched.states, 10);
        assert!(search(&set, &[], 64, usize::MAX).complete());
    }
}
