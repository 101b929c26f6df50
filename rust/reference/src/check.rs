//! The model check: the second encoder's table, evaluated under the model's assignment.

use crate::encode::{accepted, records};
use crate::formula::FORMULA_BYTES;
use crate::{accept_model, encode, first_false, formulas, Cell, Model, Refusal, Set};

/// Bytes of work memory for each record of the table.
pub const WORK_BYTES: usize = 32;

/// Whether the model satisfies the table of the set, the map and the bound. Refused by 11 or an
/// earlier check it leaves `work` as it was; past it the whole of `work` is 0.
pub fn check(
    set: &[u8],
    map: &[u8],
    bound: u64,
    model: &[u8],
    work: &mut [u8],
) -> Result<(), Refusal> {
    let question = Question::new(set, map, bound, model)?;
    if work.len() < question.work_needed() {
        return Err(Refusal::ROOM);
    }
    work.fill(0);
    satisfies(set, map, bound, &question)
}

/// What model check and decoding are given, accepted.
pub(crate) struct Question {
    pub(crate) set: Set,
    pub(crate) map: Vec<Cell>,
    pub(crate) bound: usize,
    pub(crate) model: Model,
}

impl Question {
    /// 9, 10, then 15: the length of a model depends on the bound.
    pub(crate) fn new(
        set: &[u8],
        map: &[u8],
        bound: u64,
        model: &[u8],
    ) -> Result<Question, Refusal> {
        let (set, map) = accepted(set, map, bound)?;
        let bound = bound as usize;
        let model = accept_model(model, set.threads.len(), bound)?;
        Ok(Question {
            set,
            map,
            bound,
            model,
        })
    }

    fn records(&self) -> usize {
        records(&self.set, self.map.len(), self.bound)
    }

    pub(crate) fn work_needed(&self) -> usize {
        self.records() * WORK_BYTES
    }
}

/// 16, or the model is accepted.
pub(crate) fn satisfies(
    set: &[u8],
    map: &[u8],
    bound: u64,
    question: &Question,
) -> Result<(), Refusal> {
    let mut table = vec![0; question.records() * FORMULA_BYTES];
    encode(set, map, bound, &mut table)?;
    match first_false(&formulas(&table), &question.model.assignment()) {
        Some(record) => Err(Refusal::not_satisfied(record)),
        None => Ok(()),
    }
}

#[cfg(test)]
mod tests {
    use super::*;

    /// EXIT 1, as docs/TABLE.md has its table for K 1: constraint 19, goal 31, 32 records.
    const EXITS: [u8; 8] = [0, 18, 0, 0, 1, 0, 0, 0];
    const WORK: usize = 32 * WORK_BYTES;

    /// The answer, and whether the work memory is 0 throughout; else it is as it was.
    fn checked(
        set: &[u8],
        map: &[u8],
        bound: u64,
        model: &[u8],
        room: usize,
    ) -> (Result<(), Refusal>, bool) {
        let mut work = vec![0xa5; room];
        let answer = check(set, map, bound, model, &mut work);
        let cleared = work.iter().all(|&byte| byte == 0);
        assert!(cleared || work.iter().all(|&byte| byte == 0xa5));
        (answer, cleared)
    }

    #[test]
    fn the_table_of_the_page() {
        let check = |model: &[u8]| checked(&EXITS, &[], 1, model, WORK);
        assert_eq!(check(&[1, 0]), (Ok(()), true));
        for model in [[0, 0], [1, 1], [0, 1]] {
            assert_eq!(check(&model), (Err(Refusal::not_satisfied(19)), true));
        }
        let mut zero = EXITS;
        zero[4] = 0;
        let answer = checked(&zero, &[], 1, &[1, 0], WORK);
        assert_eq!(answer, (Err(Refusal::not_satisfied(31)), true));
    }

    // I3: cells that contradict the set's map are a valid model.
    #[test]
    fn cells_against_the_map() {
        // Records 6 to 10 are the map's cell.
        let map = [3, 0, 5, 0];
        let room = WORK + 5 * WORK_BYTES;
        let check = |model: &[u8]| checked(&EXITS, &map, 1, model, room);
        let contradicts = (Err(Refusal::not_satisfied(10)), true);
        assert_eq!(check(&[1, 0, 3, 0, 5, 0]), (Ok(()), true));
        assert_eq!(check(&[1, 0, 3, 0, 6, 0]), contradicts);
        assert_eq!(check(&[1, 0]), contradicts);
        let other = check(&[1, 0, 3, 0, 5, 0, 9, 0, 9, 0]);
        assert_eq!(other, (Ok(()), true));
    }

    // I4 and I7.
    #[test]
    fn refusals_in_order() {
        let bad_model = [2];
        let refused = |set: &[u8], bound, model: &[u8], room| {
            let (answer, cleared) = checked(set, &[], bound, model, room);
            // No byte of an empty work memory tells.
            assert!(room == 0 || !cleared);
            answer.expect_err("refused")
        };
        assert_eq!(refused(&[], 0, &bad_model, 0), Refusal::RECORDS);
        assert_eq!(refused(&EXITS, 0, &bad_model, 0), Refusal::BOUND);
        assert_eq!(refused(&EXITS, 65, &bad_model, 9), Refusal::BOUND);
        assert_eq!(refused(&EXITS, u64::MAX, &[], 9), Refusal::BOUND);
        assert_eq!(refused(&EXITS, 1, &bad_model, 9), Refusal::MODEL);
        assert_eq!(refused(&EXITS, 2, &[1, 0], 9), Refusal::MODEL);
        assert_eq!(refused(&EXITS, 1, &[0, 0], 9), Refusal::ROOM);
        assert_eq!(refused(&EXITS, 1, &[1, 0], WORK - 1), Refusal::ROOM);
    }

    // I6: "the whole of it".
    #[test]
    fn longer_work_memory() {
        let (answer, cleared) = checked(&EXITS, &[], 1, &[1, 0], WORK + 77);
        assert_eq!((answer, cleared), (Ok(()), true));
        let (answer, cleared) = checked(&EXITS, &[], 1, &[0, 0], WORK + 77);
        assert_eq!(answer, Err(Refusal::not_satisfied(19)));
        assert!(cleared);
    }
}
