//! The twenty instructions: number, word, and the classes that document 01's rules speak of.

#[derive(Clone, Copy, Debug, PartialEq, Eq)]
#[repr(u8)]
pub enum Instruction {
    Load = 0,
    Store = 1,
    Fence = 2,
    Add = 3,
    Addi = 4,
    Sub = 5,
    Subi = 6,
    Mul = 7,
    Muli = 8,
    Jmp = 9,
    Jz = 10,
    Jnz = 11,
    Js = 12,
    Jns = 13,
    Jnzns = 14,
    Mem = 15,
    Cas = 16,
    Halt = 17,
    Exit = 18,
    Check = 19,
}

use Instruction::*;

impl Instruction {
    /// All of them, each at the index that is its number.
    pub const ALL: [Instruction; 20] = [
        Load, Store, Fence, Add, Addi, Sub, Subi, Mul, Muli, Jmp, Jz, Jnz, Js, Jns, Jnzns, Mem,
        Cas, Halt, Exit, Check,
    ];

    pub fn from_number(number: u8) -> Option<Instruction> {
        Instruction::ALL.get(usize::from(number)).copied()
    }

    pub fn number(self) -> u8 {
        self as u8
    }

    pub fn word(self) -> &'static str {
        match self {
            Load => "LOAD",
            Store => "STORE",
            Fence => "FENCE",
            Add => "ADD",
            Addi => "ADDI",
            Sub => "SUB",
            Subi => "SUBI",
            Mul => "MUL",
            Muli => "MULI",
            Jmp => "JMP",
            Jz => "JZ",
            Jnz => "JNZ",
            Js => "JS",
            Jns => "JNS",
            Jnzns => "JNZNS",
            Mem => "MEM",
            Cas => "CAS",
            Halt => "HALT",
            Exit => "EXIT",
            Check => "CHECK",
        }
    }

    /// "An instruction word matches letter for letter, in capitals."
    pub fn from_word(word: &[u8]) -> Option<Instruction> {
        Some(match word {
            b"LOAD" => Load,
            b"STORE" => Store,
            b"FENCE" => Fence,
            b"ADD" => Add,
            b"ADDI" => Addi,
            b"SUB" => Sub,
            b"SUBI" => Subi,
            b"MUL" => Mul,
            b"MULI" => Muli,
            b"JMP" => Jmp,
            b"JZ" => Jz,
            b"JNZ" => Jnz,
            b"JS" => Js,
            b"JNS" => Jns,
            b"JNZNS" => Jnzns,
            b"MEM" => Mem,
            b"CAS" => Cas,
            b"HALT" => Halt,
            b"EXIT" => Exit,
            b"CHECK" => Check,
            _ => return None,
        })
    }

    /// Memory words: their argument is an address and may be indirect.
    pub fn is_memory(self) -> bool {
        matches!(self, Load | Store | Add | Sub | Mul | Mem | Cas)
    }

    /// Jumps: their argument is a pc.
    pub fn is_jump(self) -> bool {
        matches!(self, Jmp | Jz | Jnz | Js | Jns | Jnzns)
    }

    pub fn has_argument(self) -> bool {
        !matches!(self, Fence | Halt)
    }

    /// "STORE, FENCE, CAS and HALT also need full = 0."
    pub fn needs_empty_buffer(self) -> bool {
        matches!(self, Store | Fence | Cas | Halt)
    }

    /// "Each thread ends in EXIT, JMP or HALT."
    pub fn may_be_last(self) -> bool {
        matches!(self, Exit | Jmp | Halt)
    }

    /// Whether the statement jumps at this accu; never for a word that is no jump.
    pub fn jumps_at(self, accu: u16) -> bool {
        let top_bit = accu >> 15 == 1;
        match self {
            Jmp => true,
            Jz => accu == 0,
            Jnz => accu != 0,
            Js => top_bit,
            Jns => !top_bit,
            Jnzns => !top_bit && accu != 0,
            _ => false,
        }
    }
}

#[cfg(test)]
mod tests {
    use super::*;

    #[test]
    fn numbers_are_indexes() {
        for number in 0..=255 {
            match Instruction::from_number(number) {
                Some(instruction) => assert_eq!(instruction.number(), number),
                None => assert!(number >= 20),
            }
        }
    }

    #[test]
    fn words_are_whole_and_in_capitals() {
        for instruction in Instruction::ALL {
            let word = instruction.word().as_bytes();
            assert_eq!(Instruction::from_word(word), Some(instruction));
            assert_eq!(Instruction::from_word(&word.to_ascii_lowercase()), None);
            assert_eq!(Instruction::from_word(&[word, b"S"].concat()), None);
        }
        for word in ["", "CMP", "FLUSH", "Halt", "LOA", "JN"] {
            assert_eq!(Instruction::from_word(word.as_bytes()), None);
        }
    }

    // Sample 6.
    #[test]
    fn jnzns_jumps_at_32767_alone() {
        assert!(Jnzns.jumps_at(32_767));
        assert!(!Jnzns.jumps_at(0));
        assert!(!Jnzns.jumps_at(32_768));
    }

    #[test]
    fn conditions_at_the_bounds_of_the_sign() {
        for (accu, jumping) in [
            (0, vec![Jmp, Jz, Jns]),
            (1, vec![Jmp, Jnz, Jns, Jnzns]),
            (32_767, vec![Jmp, Jnz, Jns, Jnzns]),
            (32_768, vec![Jmp, Jnz, Js]),
            (65_535, vec![Jmp, Jnz, Js]),
        ] {
            for instruction in Instruction::ALL {
                assert_eq!(
                    instruction.jumps_at(accu),
                    jumping.contains(&instruction),
                    "{} at {accu}",
                    instruction.word()
                );
            }
        }
    }
}
