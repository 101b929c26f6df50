//! What each step of a trace did, as far as the trace alone shows it: the words that it loaded, the
//! store that it put into its buffer, the cell that it wrote.

use reference::trace::Step;
use reference::{Cell, Instruction, Statement};
use std::collections::{BTreeMap, BTreeSet};

/// A word that a step loaded. An address or a word that the trace does not show is None.
#[derive(Clone, Copy, Debug, PartialEq, Eq)]
pub struct Loaded {
    pub address: Option<u16>,
    pub word: Option<u16>,
    pub forwarded: bool,
}

/// A store that went into a buffer.
#[derive(Clone, Copy, Debug, PartialEq, Eq)]
pub struct Stored {
    pub address: Option<u16>,
    pub value: u16,
}

#[derive(Clone, Copy, Debug, Default, PartialEq, Eq)]
pub struct Effect {
    /// The load of an indirect argument.
    pub address_word: Option<Loaded>,
    /// The load at the address, or the cell that a CAS compares.
    pub data_word: Option<Loaded>,
    pub stored: Option<Stored>,
    /// By a flush or by a CAS that matched.
    pub written: Option<Cell>,
    /// Of a CAS with a step after it, which shows it.
    pub matched: Option<bool>,
}

/// The effects of the steps, in order. A record that is no trace step has none.
pub fn effects(steps: &[Option<Step>]) -> Vec<Effect> {
    let mut first = BTreeMap::new();
    // A first cell that a later step shows may tell an earlier step's address. Each turn finds one
    // more at least, of at most two a step.
    loop {
        let mut known = Known {
            cells: first.clone(),
            first: first.clone(),
            written: BTreeSet::new(),
        };
        let effects = (0..steps.len()).map(|at| known.step(steps, at)).collect();
        if known.first.len() == first.len() {
            return effects;
        }
        first = known.first;
    }
}

/// The state of its thread after the step: no other thread changes it.
fn after(steps: &[Option<Step>], at: usize, thread: u8) -> Option<Step> {
    let later = steps[at + 1..].iter().flatten();
    later.copied().find(|step| step.thread == thread)
}

/// The cells that the trace has shown so far.
struct Known {
    cells: BTreeMap<u16, u16>,
    /// First memory.
    first: BTreeMap<u16, u16>,
    written: BTreeSet<u16>,
}

impl Known {
    fn step(&mut self, steps: &[Option<Step>], at: usize) -> Effect {
        let Some(step) = steps[at] else {
            return Effect::default();
        };
        let is_cas = matches!(step.statement, Some(s) if s.instruction == Instruction::Cas);
        let next = steps.get(at + 1).copied().flatten();
        let written = match step.statement {
            None => Some(Cell {
                address: step.adr,
                value: step.val,
            }),
            Some(_) => next.filter(|_| is_cas).and_then(|next| next.written),
        };
        let after = after(steps, at, step.thread);
        let mut effect = match step.statement {
            Some(statement) if statement.instruction.is_memory() => {
                self.access(step, statement, after, written)
            }
            _ => Effect::default(),
        };
        effect.written = written;
        if is_cas {
            effect.matched = next.map(|next| next.written.is_some());
        }
        if let Some(cell) = written {
            self.cells.insert(cell.address, cell.value);
            self.written.insert(cell.address);
        }
        effect
    }

    /// The words that a memory word loads, and its store.
    fn access(
        &mut self,
        step: Step,
        statement: Statement,
        after: Option<Step>,
        written: Option<Cell>,
    ) -> Effect {
        let mut effect = Effect::default();
        let mut address = Some(statement.argument);
        if statement.indirect {
            let shown = match statement.instruction {
                Instruction::Store => after.filter(|after| after.full).map(|after| after.adr),
                Instruction::Cas => written.map(|cell| cell.address),
                _ => None,
            };
            effect.address_word = self.load(step, address, shown);
            address = effect.address_word.and_then(|loaded| loaded.word);
        }
        match statement.instruction {
            Instruction::Store => {
                let value = step.accu;
                effect.stored = Some(Stored { address, value });
            }
            Instruction::Cas => {
                effect.data_word = Some(self.read(address, written.map(|_| step.mem)));
            }
            _ => {
                let shown = after.and_then(|after| taken(statement.instruction, step, after));
                effect.data_word = self.load(step, address, shown);
            }
        }
        effect
    }

    /// None where the trace does not show whether the buffer gave the word.
    fn load(&mut self, step: Step, address: Option<u16>, shown: Option<u16>) -> Option<Loaded> {
        if step.full && address.is_none() {
            None
        } else if step.full && address == Some(step.adr) {
            Some(Loaded {
                address,
                word: Some(step.val),
                forwarded: true,
            })
        } else {
            Some(self.read(address, shown))
        }
    }

    fn read(&mut self, address: Option<u16>, shown: Option<u16>) -> Loaded {
        let known = address.and_then(|address| self.cells.get(&address).copied());
        let word = shown.or(known);
        if let (Some(address), Some(word)) = (address, word) {
            self.cells.insert(address, word);
            if !self.written.contains(&address) {
                self.first.entry(address).or_insert(word);
            }
        }
        Loaded {
            address,
            word,
            forwarded: false,
        }
    }
}

/// The word that a load took, from accu before and after it. A product does not tell its factor.
fn taken(instruction: Instruction, step: Step, after: Step) -> Option<u16> {
    match instruction {
        Instruction::Load | Instruction::Mem => Some(after.accu),
        Instruction::Add => Some(after.accu.wrapping_sub(step.accu)),
        Instruction::Sub => Some(step.accu.wrapping_sub(after.accu)),
        _ => None,
    }
}
