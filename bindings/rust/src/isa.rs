//! Decoding of a row of the processor table, and the names of the instructions.

use core::fmt::{Display, Formatter, Result as Written};
use core::ops::RangeInclusive;

use crate::air::ProcessorMainColumn::{CI, NIA};
use crate::processor::MainRow;
use crate::{abi, answer, Refusal};

/// What a row's CI and NIA stand for. It is shown as the instruction's name, or as why there is none.
#[derive(Debug, Clone, Copy, PartialEq, Eq, Hash)]
#[non_exhaustive]
pub enum Decoded {
    /// The instruction with this opcode.
    Read(u64),
    /// No instruction: this word, CI, is no opcode.
    Unknown(u64),
    /// No instruction: the opcode's does not take such an argument.
    Outside {
        /// CI.
        opcode: u64,
        /// NIA.
        argument: u64,
        /// What the instruction takes.
        class: Class,
    },
}

/// The arguments that an instruction takes, where it does not take every word.
#[derive(Debug, Clone, Copy, PartialEq, Eq, Hash)]
pub enum Class {
    /// An element of the stack, 0 to 15: pick, place, dup and swap.
    StackElement,
    /// A number of words, 1 to 5: pop, divine, read_mem, write_mem, read_io and write_io.
    NumberOfWords,
}

impl Class {
    /// All of them.
    pub const fn arguments(self) -> RangeInclusive<u64> {
        match self {
            Class::StackElement => 0..=15,
            Class::NumberOfWords => 1..=5,
        }
    }
}

/// What the row decodes to.
///
/// ```
/// use tealbobbin::air::ProcessorMainColumn::{CI, NIA};
/// use tealbobbin::isa::{decode, Class, Decoded};
/// use tealbobbin::processor::MainRow;
///
/// // read_io reads 1 to 5 words
/// let mut row = MainRow::ZERO;
/// (row[CI], row[NIA]) = (73, 5);
/// assert_eq!(decode(&row)?, Decoded::Read(73));
/// row[NIA] = 6;
/// assert_eq!(decode(&row)?, Decoded::Outside { opcode: 73, argument: 6, class: Class::NumberOfWords });
/// assert_eq!(decode(&row)?.to_string(), "argument 6 of read_io is not in 1 to 5");
/// row[CI] = 7;
/// assert_eq!(decode(&row)?, Decoded::Unknown(7));
/// assert_eq!(decode(&row)?.to_string(), "opcode 7 is none");
/// # Ok::<(), tealbobbin::Refusal>(())
/// ```
///
/// # Errors
///
/// [`Refusal::WordNotBelowP`] for any word of the row.
pub fn decode(row: &MainRow) -> Result<Decoded, Refusal> {
    let mut out = [0; 2];
    let number = abi::decode(&row.0, &mut out);
    let outside = |opcode, class| Decoded::Outside { opcode, argument: row[NIA], class };
    let decoded = match out {
        [1, opcode] => Decoded::Read(opcode),
        [2, opcode] => outside(opcode, Class::StackElement),
        [3, opcode] => outside(opcode, Class::NumberOfWords),
        _ => Decoded::Unknown(row[CI]),
    };
    answer(number, decoded)
}

/// The name of the instruction with this opcode, as Triton VM's crate triton-isa has it.
pub const fn name(opcode: u64) -> Option<&'static str> {
    Some(match opcode {
        0 => "halt",
        1 => "push",
        2 => "skiz",
        3 => "pop",
        4 => "split",
        6 => "lt",
        8 => "nop",
        9 => "divine",
        10 => "assert",
        11 => "write_mem",
        12 => "log_2_floor",
        14 => "and",
        16 => "return",
        17 => "pick",
        18 => "hash",
        19 => "write_io",
        20 => "div_mod",
        22 => "xor",
        24 => "recurse",
        25 => "place",
        26 => "assert_vector",
        28 => "pop_count",
        30 => "pow",
        32 => "recurse_or_return",
        33 => "dup",
        34 => "sponge_absorb",
        36 => "merkle_step",
        40 => "sponge_init",
        41 => "swap",
        42 => "add",
        44 => "merkle_step_mem",
        48 => "sponge_absorb_mem",
        49 => "call",
        50 => "mul",
        56 => "sponge_squeeze",
        57 => "read_mem",
        58 => "eq",
        64 => "invert",
        65 => "addi",
        66 => "xx_add",
        72 => "x_invert",
        73 => "read_io",
        74 => "xx_mul",
        80 => "xx_dot_step",
        82 => "xb_mul",
        88 => "xb_dot_step",
        _ => return None,
    })
}

impl Display for Decoded {
    fn fmt(&self, f: &mut Formatter<'_>) -> Written {
        let name = |opcode| name(opcode).unwrap_or("an instruction of a later library");
        match *self {
            Decoded::Read(opcode) => f.pad(name(opcode)),
            Decoded::Unknown(ci) => write!(f, "opcode {ci} is none"),
            Decoded::Outside { opcode, argument, class } => write!(f, "argument {argument} of {} is not in {class}", name(opcode)),
        }
    }
}

/// The least and the greatest argument.
impl Display for Class {
    fn fmt(&self, f: &mut Formatter<'_>) -> Written {
        let arguments = self.arguments();
        write!(f, "{} to {}", arguments.start(), arguments.end())
    }
}

#[cfg(test)]
mod tests {
    extern crate std;

    use std::string::ToString;

    use super::*;
    use crate::field::P;

    fn decoded(ci: u64, nia: u64) -> Decoded {
        let mut row = MainRow::ZERO;
        (row[CI], row[NIA]) = (ci, nia);
        decode(&row).unwrap()
    }

    #[test]
    fn reasons() {
        for (opcode, class) in [(33, Class::StackElement), (73, Class::NumberOfWords)] {
            for argument in (0..=17).chain([1 << 32, (1 << 32) + 1, P - 1]) {
                let taken = class.arguments().contains(&argument);
                let due = if taken { Decoded::Read(opcode) } else { Decoded::Outside { opcode, argument, class } };
                assert_eq!(decoded(opcode, argument), due);
            }
        }
        for ci in [5, 7, 89, 256 + 73, (1 << 32) + 33, P - 1] {
            assert_eq!(decoded(ci, 16), Decoded::Unknown(ci));
        }
        assert_eq!([0, 1, 65].map(|opcode| decoded(opcode, P - 1)), [0, 1, 65].map(Decoded::Read));
    }

    #[test]
    fn messages() {
        assert_eq!(decoded(7, 16).to_string(), "opcode 7 is none");
        assert_eq!(decoded(33, 16).to_string(), "argument 16 of dup is not in 0 to 15");
        assert_eq!(decoded(73, 0).to_string(), "argument 0 of read_io is not in 1 to 5");
        assert_eq!(std::format!("{:>8}", decoded(73, 5)), " read_io");
    }

    #[test]
    fn refusals() {
        for place in 0..MainRow::ZERO.0.len() {
            let mut row = MainRow::ZERO;
            row.0[place] = P;
            assert_eq!(decode(&row), Err(Refusal::WordNotBelowP));
        }
    }
}
