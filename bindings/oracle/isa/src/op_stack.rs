//! The arguments that name a stack register or count words, by document 01's meanings: 0 to 15 and 1 to 5.

use std::fmt::{Display, Formatter, Result as FmtResult};

use strum::EnumCount;
use twenty_first::prelude::*;

pub const NUM_OP_STACK_REGISTERS: usize = OpStackElement::COUNT;

/// An argument out of range.
#[derive(Debug, Clone, Eq, PartialEq)]
pub struct OpStackError;

macro_rules! argument {
    ($(#[$about:meta])* $name:ident, $number:ident: $($variant:ident = $value:literal),*) => {
        $(#[$about])*
        #[derive(Debug, Default, Copy, Clone, Eq, PartialEq, Hash, EnumCount)]
        pub enum $name {
            #[default]
            $($variant = $value),*
        }

        impl $name {
            pub const fn $number(&self) -> usize {
                *self as usize
            }
        }

        impl TryFrom<BFieldElement> for $name {
            type Error = OpStackError;

            fn try_from(argument: BFieldElement) -> Result<Self, OpStackError> {
                match argument.value() {
                    $($value => Ok($name::$variant),)*
                    _ => Err(OpStackError),
                }
            }
        }

        impl From<&$name> for BFieldElement {
            fn from(argument: &$name) -> Self {
                bfe!(*argument as u64)
            }
        }

        impl Display for $name {
            fn fmt(&self, f: &mut Formatter<'_>) -> FmtResult {
                write!(f, "{}", *self as usize)
            }
        }
    };
}

argument!(
    /// A stack register.
    OpStackElement, index:
    ST0 = 0, ST1 = 1, ST2 = 2, ST3 = 3, ST4 = 4, ST5 = 5, ST6 = 6, ST7 = 7,
    ST8 = 8, ST9 = 9, ST10 = 10, ST11 = 11, ST12 = 12, ST13 = 13, ST14 = 14, ST15 = 15
);

argument!(
    /// A number of words.
    NumberOfWords, num_words:
    N1 = 1, N2 = 2, N3 = 3, N4 = 4, N5 = 5
);

impl NumberOfWords {
    pub const fn legal_values() -> [usize; 5] {
        [1, 2, 3, 4, 5]
    }

    /// The other numbers of four bits.
    pub const fn illegal_values() -> [usize; 11] {
        [0, 6, 7, 8, 9, 10, 11, 12, 13, 14, 15]
    }
}
