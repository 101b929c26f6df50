//! Formula records: operations, sorts, fields, and their 16 bytes.

pub const FORMULA_BYTES: usize = 16;

/// "Sort (1 bit, 2 word, 3 memory, 0 none)."
pub mod sort {
    pub const NONE: u8 = 0;
    pub const BIT: u8 = 1;
    pub const WORD: u8 = 2;
    pub const MEMORY: u8 = 3;
}

/// Operations by number.
pub mod operation {
    pub const CHOICE: u8 = 1;
    pub const FIRST: u8 = 2;
    pub const CONSTANT: u8 = 3;
    pub const NOT: u8 = 4;
    pub const AND: u8 = 5;
    pub const OR: u8 = 6;
    pub const EQUAL: u8 = 7;
    pub const IF: u8 = 8;
    pub const PLUS: u8 = 9;
    pub const MINUS: u8 = 10;
    pub const TIMES: u8 = 11;
    pub const READ: u8 = 12;
    pub const WRITE: u8 = 13;
    pub const TOP: u8 = 14;
    pub const CONSTRAINT: u8 = 15;
    pub const GOAL: u8 = 16;
}

#[derive(Clone, Copy, Debug, Default, PartialEq, Eq)]
pub struct Formula {
    pub operation: u8,
    pub sort: u8,
    pub constant: u16,
    pub a: u32,
    pub b: u32,
    pub c: u32,
}

impl Formula {
    /// "Operation, sort, constant (2), operands a, b, c (4 each)."
    pub fn bytes(self) -> [u8; FORMULA_BYTES] {
        let low = u64::from(self.operation)
            | u64::from(self.sort) << 8
            | u64::from(self.constant) << 16
            | u64::from(self.a) << 32;
        let high = u64::from(self.b) | u64::from(self.c) << 32;
        (u128::from(low) | u128::from(high) << 64).to_le_bytes()
    }

    pub fn from_bytes(bytes: [u8; FORMULA_BYTES]) -> Formula {
        let long = |at: usize| {
            u32::from_le_bytes([bytes[at], bytes[at + 1], bytes[at + 2], bytes[at + 3]])
        };
        Formula {
            operation: bytes[0],
            sort: bytes[1],
            constant: u16::from_le_bytes([bytes[2], bytes[3]]),
            a: long(4),
            b: long(8),
            c: long(12),
        }
    }

    /// A constraint or a goal.
    pub fn is_demand(&self) -> bool {
        matches!(self.operation, operation::CONSTRAINT | operation::GOAL)
    }
}

/// The records of a table's bytes. Bytes that are no whole record are left out.
pub fn formulas(table: &[u8]) -> Vec<Formula> {
    table
        .chunks_exact(FORMULA_BYTES)
        .map(|record| Formula::from_bytes(record.try_into().expect("16 bytes")))
        .collect()
}

#[cfg(test)]
mod tests {
    use super::*;

    #[test]
    fn fields_are_little_endian() {
        let formula = Formula {
            operation: 8,
            sort: 2,
            constant: 0x0403,
            a: 0x0807_0605,
            b: 0x0c0b_0a09,
            c: 0x100f_0e0d,
        };
        let bytes = formula.bytes();
        assert_eq!(
            bytes,
            [8, 2, 3, 4, 5, 6, 7, 8, 9, 10, 11, 12, 13, 14, 15, 16]
        );
        assert_eq!(formulas(&bytes), [formula]);
        assert_eq!(formulas(&bytes[..15]), []);
    }
}
