//! Refusals and their numbers.

use core::error::Error;
use core::fmt::{Display, Formatter, Result as Written};

use crate::batch::{MAX_BYTES, MAX_DIFFERENCES, MAX_IO_WORDS, MAX_LOG2_HEIGHT, MAX_TRACE_ROWS};
use crate::field::P;
use crate::processor::{MAX_ROWS, WORK_WIDTH};

macro_rules! refusals {
    ($($(#[$meaning:meta])* $name:ident = $number:literal, $message:literal;)*) => {
        /// Why an operation turned its input away. Nothing that was lent has changed then.
        #[derive(Debug, Clone, Copy, PartialEq, Eq, Hash)]
        #[non_exhaustive]
        pub enum Refusal {
            $($(#[$meaning])* $name,)*
            /// A number that this crate has no name for: the library is a later one.
            #[non_exhaustive]
            Other {
                /// The number.
                number: u32,
            },
        }

        impl Refusal {
            /// The refusal with this number; 0 is none, and a number without a name is [`Refusal::Other`].
            pub const fn from_number(number: u32) -> Option<Refusal> {
                Some(match number {
                    0 => return None,
                    $($number => Refusal::$name,)*
                    _ => Refusal::Other { number },
                })
            }

            /// The number that the library answers.
            pub const fn number(self) -> u32 {
                match self {
                    $(Refusal::$name => $number,)*
                    Refusal::Other { number } => number,
                }
            }
        }

        /// The number, what was refused, and what would be right.
        impl Display for Refusal {
            fn fmt(&self, f: &mut Formatter<'_>) -> Written {
                write!(f, "refused {}: ", self.number())?;
                match self {
                    $(Refusal::$name => write!(f, $message),)*
                    Refusal::Other { .. } => f.write_str("the library is a later one than this crate, which has no name for the number"),
                }
            }
        }
    };
}

refusals! {
    /// 1: a slice has the wrong length.
    SliceLength = 1, "a slice has the wrong length (a batch has at most {MAX_BYTES} bytes, {MAX_DIFFERENCES} differences in a list and \
        {MAX_IO_WORDS} words of input and of output, and is written into exactly the bytes that it takes; another list, or a scan, has \
        at most {MAX_ROWS} items; extension and check take an auxiliary row for each row of the main table, and extension \
        {WORK_WIDTH} words of work for each started chunk of them, as processor::work_len says)";
    /// 2: a word is not below p.
    WordNotBelowP = 2, "a word is not below p = {P} (reduce every word modulo p before handing it over)";
    /// 3: a number of rows is out of range.
    RowCount = 3, "a number of rows is out of range (a batch has 1 to {MAX_TRACE_ROWS}; a table has at least its trace's, \
        2 to be padded, 1 to be extended or checked, and at most {MAX_ROWS})";
    /// 4: a clock jump difference is not below the number of trace rows.
    DifferenceTooLarge = 4, "a clock jump difference is not below the number of trace rows (it names a row of its own trace)";
    /// 5: the chunk length is 0.
    ChunkLengthZero = 5, "the chunk length is 0 (any positive one gives the same result)";
    /// 6: a denominator is zero, or what is to be inverted.
    ZeroDenominator = 6, "a denominator is zero, or what is to be inverted (where extension or check refuses, a challenge equals \
        an entry of a lookup column: sample the challenges again)";
    /// 7: a byte of a batch is no command.
    UnknownCommand = 7, "a byte of the batch is no command (commands are 00 to 0B; the operand before it may have another width than \
        its command asks)";
    /// 8: a batch ends too early.
    BatchCutOff = 8, "the batch ends inside an operand or before its end, 00 (compare its length with what was sent)";
    /// 9: a batch has a command out of place or too often, or lacks one.
    CommandOutOfPlace = 9, "the batch has a command out of place or too often, or lacks one (01 first and once, 06 and 07 once each, \
        0B at most once, 02 or 0A, the same throughout, as often as 01 says, 03 to 05 at most {MAX_DIFFERENCES} times each, 08 and 09 at most \
        {MAX_IO_WORDS} times each, 00 last)";
    /// 10: a batch has a command behind one that belongs after it, or a difference below the one before it.
    CommandOutOfOrder = 10, "the batch has a command behind one that belongs after it, or a difference below the one before it (the \
        order is 01, 0B, 07, all 08, all 09, 06, all rows, all 03, all 04, all 05, 00, each list of differences not descending)";
    /// 11: a row does not decode; of [`extend_strict`](crate::processor::extend_strict) alone.
    UndecodableRow = 11, "a row of the main table does not decode (isa::decode says of each row what it decodes to, or why not; \
        processor::extend takes such rows)";
    /// 12: a batch's height is out of range, or holds fewer rows than the trace has.
    HeightOutOfRange = 12, "the height of a batch is out of range (its table has 2^k rows, k from 1 to {MAX_LOG2_HEIGHT}, and at least \
        its trace's)";
}

impl Error for Refusal {}

/// The value, or the refusal that the number names.
pub(crate) fn answer<T>(number: u32, value: T) -> Result<T, Refusal> {
    match Refusal::from_number(number) {
        None => Ok(value),
        Some(refusal) => Err(refusal),
    }
}

#[cfg(test)]
mod tests {
    extern crate std;

    use std::string::ToString;

    use super::Refusal;

    #[test]
    fn each_number_leads_back() {
        assert_eq!(Refusal::from_number(0), None);
        for number in (1..=20).chain([u32::MAX]) {
            let refusal = Refusal::from_number(number).unwrap();
            assert_eq!(refusal.number(), number);
            assert_eq!(matches!(refusal, Refusal::Other { .. }), number > 12);
            assert!(refusal.to_string().starts_with(&std::format!("refused {number}: ")));
        }
    }

    #[test]
    fn messages() {
        let says = |refusal: Refusal, message: &str| assert_eq!(refusal.to_string(), message);
        says(Refusal::ChunkLengthZero, "refused 5: the chunk length is 0 (any positive one gives the same result)");
        says(
            Refusal::WordNotBelowP,
            "refused 2: a word is not below p = 18446744069414584321 (reduce every word modulo p before handing it over)",
        );
        says(
            Refusal::UndecodableRow,
            "refused 11: a row of the main table does not decode (isa::decode says of each row what it decodes to, or why not; \
             processor::extend takes such rows)",
        );
        says(
            Refusal::Other { number: 17 },
            "refused 17: the library is a later one than this crate, which has no name for the number",
        );
    }
}
