//! What the calls answer, taken from the packed number that the library returns.

use crate::Refusal;
use std::fmt;

/// How far a run went: it ended with a code, no choice was permitted any more, or some choice still
/// was.
#[derive(Clone, Copy, Debug, PartialEq, Eq)]
pub enum End {
    Code(u16),
    Stuck,
    Open,
}

/// The last line of document 01's listing.
impl fmt::Display for End {
    fn fmt(&self, f: &mut fmt::Formatter<'_>) -> fmt::Result {
        match self {
            End::Code(code) => write!(f, "end {code}"),
            End::Stuck => f.write_str("stuck"),
            End::Open => f.write_str("open"),
        }
    }
}

/// A run that was accepted.
#[derive(Clone, Copy, Debug, PartialEq, Eq)]
pub struct Ran {
    pub steps: u16,
    pub end: End,
}

/// A set text that was accepted: how many statement records and map records were written.
#[derive(Clone, Copy, Debug, PartialEq, Eq)]
pub struct Read {
    pub statements: u16,
    pub cells: u16,
}

/// A model that was decoded: how many trace steps and map records were written.
#[derive(Clone, Copy, Debug, PartialEq, Eq)]
pub struct Decoded {
    pub steps: u16,
    pub cells: u16,
}

/// Bits 0 to 7 are the refusal's number, 0 on success; on a refusal bits 32 to 63 are the place.
fn accepted(packed: u64) -> Result<(), Refusal> {
    match packed as u8 {
        0 => Ok(()),
        number => Err(Refusal::new(number, (packed >> 32) as u32)
            .unwrap_or_else(|| unreachable!("the library gave {number} as a refusal"))),
    }
}

/// The answer of reading. On success bits 16 to 31 are the statements, 32 to 47 the cells.
pub(crate) fn read_answer(packed: u64) -> Result<Read, Refusal> {
    accepted(packed)?;
    Ok(Read {
        statements: (packed >> 16) as u16,
        cells: (packed >> 32) as u16,
    })
}

/// The answer of simulation or replay. On success bits 8 to 15 are the end, 16 to 31 the code, 32 to
/// 47 the steps.
pub(crate) fn run_answer(packed: u64) -> Result<Ran, Refusal> {
    accepted(packed)?;
    let end = match (packed >> 8) as u8 {
        0 => End::Code((packed >> 16) as u16),
        1 => End::Stuck,
        2 => End::Open,
        other => unreachable!("the library gave {other} as an end"),
    };
    Ok(Ran {
        steps: (packed >> 32) as u16,
        end,
    })
}

/// The answer of encoding or of a table's size. On success bits 32 to 63 are the records.
pub(crate) fn table_answer(packed: u64) -> Result<u32, Refusal> {
    accepted(packed)?;
    Ok((packed >> 32) as u32)
}

/// The answer of the model check. Nothing goes with a success.
pub(crate) fn check_answer(packed: u64) -> Result<(), Refusal> {
    accepted(packed)
}

/// The answer of decoding. On success bits 32 to 47 are the steps, 48 to 63 the cells.
pub(crate) fn decode_answer(packed: u64) -> Result<Decoded, Refusal> {
    accepted(packed)?;
    Ok(Decoded {
        steps: (packed >> 32) as u16,
        cells: (packed >> 48) as u16,
    })
}

#[cfg(test)]
mod tests {
    use super::*;

    #[test]
    fn packed_answers() {
        let ran = |steps, end| Ok(Ran { steps, end });
        assert_eq!(run_answer(0), ran(0, End::Code(0)));
        assert_eq!(run_answer(0x0003_fffe_0000), ran(3, End::Code(65_534)));
        assert_eq!(run_answer(0x0040_0000_0100), ran(64, End::Stuck));
        assert_eq!(run_answer(0x0001_0000_0200), ran(1, End::Open));
        let record = 0x8000_0001;
        assert_eq!(
            run_answer(0x8000_0001_0000_0010),
            Err(Refusal::NotSatisfied { record })
        );
    }

    #[test]
    fn packed_answers_of_reading() {
        let (statements, cells) = (128, 127);
        let read = Read { statements, cells };
        assert_eq!(read_answer(0x007f_0080_0000), Ok(read));
        let line = 16_385;
        let refusal = Refusal::Malformed { line };
        assert_eq!(read_answer(0x4001_0000_0002), Err(refusal));
    }

    #[test]
    fn packed_answers_of_encoding() {
        assert_eq!(table_answer(0x0001_e748_0000_0000), Ok(124_744));
        assert_eq!(table_answer(10), Err(Refusal::Bound));
    }

    #[test]
    fn packed_answers_of_the_model_check() {
        assert_eq!(check_answer(0), Ok(()));
        let refusal = Refusal::NotSatisfied { record: 19 };
        assert_eq!(check_answer(0x0013_0000_0010), Err(refusal));
    }

    #[test]
    fn packed_answers_of_decoding() {
        let (steps, cells) = (64, 254);
        let decoded = Decoded { steps, cells };
        assert_eq!(decode_answer(0x00fe_0040_0000_0000), Ok(decoded));
        assert_eq!(decode_answer(15), Err(Refusal::Model));
    }

    #[test]
    fn ends_in_words() {
        let words = [End::Code(7), End::Stuck, End::Open].map(|end| end.to_string());
        assert_eq!(words, ["end 7", "stuck", "open"]);
    }
}
