//! One read of the library beside the same read of the second reader: the packed number, the
//! wrapper's answer, both outputs, and every lent byte with the guards around it.

use reference::{Read, Refusal};
use testing::{packed_read, Lent, Random, TextCounts};

pub struct Reading {
    /// Printed on failure.
    pub seed: u64,
    pub counts: TextCounts,
    guards: Random,
}

type Answer = Result<Read, Refusal>;

impl Reading {
    pub fn new() -> Reading {
        Reading {
            seed: 0,
            counts: TextCounts::default(),
            guards: Random::new(0x6775_6172_6473),
        }
    }

    /// Compares a read with outputs of these many bytes.
    pub fn read(&mut self, text: &[u8], set_room: usize, map_room: usize) -> Answer {
        let lent_text = Lent::new(&mut self.guards, text);
        let mut lent_set = Lent::output(&mut self.guards, set_room);
        let mut lent_map = Lent::output(&mut self.guards, map_room);
        let mut wrapped_set = lent_set.bytes().to_vec();
        let mut wrapped_map = lent_map.bytes().to_vec();

        let answer = reference::read(text, set_room, map_room);
        // A refusal leaves both outputs as they were, a success what is beyond the records.
        let (mut set, mut map) = (wrapped_set.clone(), wrapped_map.clone());
        if let Ok(read) = &answer {
            set[..read.set.len()].copy_from_slice(&read.set);
            map[..read.map.len()].copy_from_slice(&read.map);
        }
        let (set_out, map_out) = (lent_set.bytes_mut(), lent_map.bytes_mut());
        // SAFETY: each pointer comes with its buffer's length.
        let number = unsafe {
            deepchalk::raw::deepchalk_read(
                lent_text.bytes().as_ptr(),
                text.len(),
                set_out.as_mut_ptr(),
                set_out.len(),
                map_out.as_mut_ptr(),
                map_out.len(),
            )
        };
        let wrapped_answer = deepchalk::read(text, &mut wrapped_set, &mut wrapped_map);

        let agree = [
            ("packed answer", number == packed_read(&answer)),
            ("wrapper", same(wrapped_answer, &answer)),
            ("text as it was", lent_text.unchanged()),
            ("set", lent_set.holds(&set)),
            ("map", lent_map.holds(&map)),
            ("wrapper's set", wrapped_set == set),
            ("wrapper's map", wrapped_map == map),
        ];
        let wrong: Vec<&str> = agree
            .iter()
            .filter(|(_, holds)| !holds)
            .map(|&(what, _)| what)
            .collect();
        assert!(
            wrong.is_empty(),
            "read differs in {wrong:?}\nseed: {}\ntext: \"{}\"\nrooms: {set_room} {map_room}\n\
             library: {number:#018x}\nsecond reader: {:#018x}, {answer:?}",
            self.seed,
            text.escape_ascii(),
            packed_read(&answer),
        );
        self.counts.add(text, &answer);
        answer
    }

    /// With room for the largest set and map.
    pub fn read_with_room(&mut self, text: &[u8]) -> Answer {
        let set_room = deepchalk::MAX_STATEMENTS * deepchalk::STATEMENT_BYTES;
        let map_room = deepchalk::MAX_SET_MAP * deepchalk::CELL_BYTES;
        self.read(text, set_room, map_room)
    }
}

/// The wrapper's answer says the same as the second reader's.
fn same(wrapped: Result<deepchalk::Read, deepchalk::Refusal>, answer: &Answer) -> bool {
    match (wrapped, answer) {
        (Ok(deepchalk::Read { statements, cells }), Ok(read)) => {
            usize::from(statements) * deepchalk::STATEMENT_BYTES == read.set.len()
                && usize::from(cells) * deepchalk::CELL_BYTES == read.map.len()
        }
        (Err(wrapped), Err(refusal)) => {
            (wrapped.number(), wrapped.place()) == (refusal.number, refusal.place)
        }
        _ => false,
    }
}
