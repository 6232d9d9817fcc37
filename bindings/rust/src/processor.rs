//! The processor's main table and its auxiliary table.
//!
//! Rows built by hand: read_io reads two words, then the program halts. The input column ends on the terminal of the claim's input.
//!
//! ```
//! use tealbobbin::air::ChallengeId::{StandardInputIndeterminate, StandardInputTerminal};
//! use tealbobbin::air::ProcessorAuxColumn::InputTableEvalArg;
//! use tealbobbin::air::ProcessorMainColumn::{CI, CLK, NIA, ST0, ST1};
//! use tealbobbin::challenges::{Challenges, Claim, SampledChallenges};
//! use tealbobbin::field::Element;
//! use tealbobbin::processor::{extend, fill, pad, work_len, AuxRow, ClkJumpDiffs, MainRow};
//!
//! let mut trace = [MainRow::ZERO; 2];
//! (trace[0][CI], trace[0][NIA]) = (73, 2);
//! (trace[1][CLK], trace[1][ST0], trace[1][ST1]) = (1, 5, 7);
//!
//! let mut sampled = SampledChallenges([Element::from(2); Challenges::SAMPLE_COUNT]);
//! sampled[StandardInputIndeterminate] = Element::from(10);
//! let claim = Claim { program_digest: [0; 5], input: &[7, 5], output: &[] };
//! let challenges = Challenges::new(&sampled, claim)?;
//!
//! let mut table = [MainRow::ZERO; 4];
//! fill(&trace, ClkJumpDiffs::default(), &mut table)?;
//! pad(&mut table, trace.len())?;
//!
//! let mut aux = [AuxRow::ZERO; 4];
//! let mut work = [0; work_len(4, 4)];
//! extend(&table, &challenges, 4, &mut aux, &mut work)?;
//! assert_eq!(aux[1][InputTableEvalArg], Element::from(175)); // (1·10 + 7)·10 + 5
//! assert_eq!(aux[3][InputTableEvalArg], challenges[StandardInputTerminal]);
//! # Ok::<(), tealbobbin::Refusal>(())
//! ```

use core::fmt::{Display, Formatter, Result as Written};
use core::ops::{Index, IndexMut};
use core::slice::from_ref;

use crate::abi::{self, words, words_mut};
use crate::air::{ProcessorAuxColumn, ProcessorMainColumn};
use crate::challenges::Challenges;
use crate::field::Element;
use crate::{answer, Refusal};

/// Words of a row of the main table.
pub const MAIN_WIDTH: usize = ProcessorMainColumn::COUNT;

/// Elements of a row of the auxiliary table.
pub const AUX_WIDTH: usize = ProcessorAuxColumn::COUNT;

/// Words of work that extension needs for each started chunk of rows; [`work_len`] has those of a table.
pub const WORK_WIDTH: usize = 6;

/// The most rows of a table; also the most items of a scan, and words of a list of differences, of input or of output.
pub const MAX_ROWS: usize = 4_194_304;

/// A row of the main table: a word for each [`ProcessorMainColumn`].
#[derive(Debug, Clone, Copy, PartialEq, Eq, Hash)]
#[repr(transparent)]
pub struct MainRow(pub [u64; MAIN_WIDTH]);

/// A row of the auxiliary table: an element for each [`ProcessorAuxColumn`].
#[derive(Debug, Clone, Copy, PartialEq, Eq, Hash)]
#[repr(transparent)]
pub struct AuxRow(pub [Element; AUX_WIDTH]);

macro_rules! by_column {
    ($row:ident, $cell:ident, $zero:expr, $column:ident, $index:ident) => {
        impl $row {
            /// Zeros.
            pub const ZERO: $row = $row([$zero; $column::COUNT]);
        }

        impl Default for $row {
            fn default() -> $row {
                $row::ZERO
            }
        }

        impl Index<$column> for $row {
            type Output = $cell;

            fn index(&self, column: $column) -> &$cell {
                &self.0[column.$index()]
            }
        }

        impl IndexMut<$column> for $row {
            fn index_mut(&mut self, column: $column) -> &mut $cell {
                &mut self.0[column.$index()]
            }
        }
    };
}

by_column!(MainRow, u64, 0, ProcessorMainColumn, main_index);
by_column!(AuxRow, Element, Element::ZERO, ProcessorAuxColumn, aux_index);

/// The clock jump differences of the three memory-like tables.
#[derive(Debug, Clone, Copy, Default, PartialEq, Eq)]
pub struct ClkJumpDiffs<'a> {
    /// Those of the op stack.
    pub op_stack: &'a [u64],
    /// Those of the RAM.
    pub ram: &'a [u64],
    /// Those of the jump stack.
    pub jump_stack: &'a [u64],
}

/// Copies the trace into the table's first rows; row c's multiplicity becomes how often c stands in the differences. Later rows stay.
///
/// # Errors
///
/// [`Refusal::SliceLength`] if a list has over [`MAX_ROWS`] words, then [`Refusal::RowCount`] if the table has over [`MAX_ROWS`]
/// rows or fewer than the trace, then [`Refusal::WordNotBelowP`] in trace or lists, then [`Refusal::DifferenceTooLarge`] if a
/// difference is not below the number of trace rows.
pub fn fill(trace: &[MainRow], differences: ClkJumpDiffs<'_>, table: &mut [MainRow]) -> Result<(), Refusal> {
    let ClkJumpDiffs { op_stack, ram, jump_stack } = differences;
    answer(abi::fill(words(trace), op_stack, ram, jump_stack, words_mut(table)), ())
}

/// Makes the rows from `table_len` on padding, and grows row 1's multiplicity by their number.
///
/// # Errors
///
/// [`Refusal::RowCount`] if the table has under 2 rows or over [`MAX_ROWS`], or `table_len` is 0 or above them, then
/// [`Refusal::WordNotBelowP`] in the first `table_len` rows.
pub fn pad(table: &mut [MainRow], table_len: usize) -> Result<(), Refusal> {
    answer(abi::pad(words_mut(table), table_len), ())
}

/// The words of work that [`extend`] and [`extend_strict`] take for this many rows by chunks of this many: [`WORK_WIDTH`] for each
/// started chunk. 0 where `chunk` is 0, which they refuse.
///
/// ```
/// use tealbobbin::processor::work_len;
///
/// assert_eq!(work_len(9, 4), 18);
/// assert_eq!(work_len(9, usize::MAX), 6);
/// ```
pub const fn work_len(rows: usize, chunk: usize) -> usize {
    if chunk == 0 {
        return 0;
    }
    rows.div_ceil(chunk).saturating_mul(WORK_WIDTH)
}

/// Writes the main table's eleven columns into `aux`, by chunks of any positive length: the cells are the same at each. `work` has
/// [`work_len`] words, fewer for longer chunks, and ends as zeros. A row that does not decode brings no entry where a column asks for
/// its instruction; [`extend_strict`] refuses it.
///
/// # Errors
///
/// [`Refusal::SliceLength`] unless `aux` has a row for each row of `main`, then [`Refusal::RowCount`] if rows are 0 or over
/// [`MAX_ROWS`], then [`Refusal::ChunkLengthZero`], then [`Refusal::SliceLength`] unless `work` has [`work_len`] words, then
/// [`Refusal::WordNotBelowP`] in `main`, then [`Refusal::ZeroDenominator`] if an entry of a lookup column has denominator zero.
pub fn extend(
    main: &[MainRow],
    challenges: &Challenges,
    chunk: usize,
    aux: &mut [AuxRow],
    work: &mut [u64],
) -> Result<(), Refusal> {
    answer(abi::extend(words(main), words(from_ref(challenges)), chunk, words_mut(aux), work), ())
}

/// [`extend`] of a table whose rows all decode: row 0, the last one and padding rows too.
///
/// ```
/// use tealbobbin::air::ProcessorMainColumn::{CI, NIA};
/// # use tealbobbin::challenges::{Challenges, Claim, SampledChallenges};
/// # use tealbobbin::field::Element;
/// use tealbobbin::isa::{decode, Decoded};
/// use tealbobbin::processor::{extend_strict, work_len, AuxRow, MainRow};
/// use tealbobbin::Refusal;
///
/// # let sampled = SampledChallenges([Element::from(2); Challenges::SAMPLE_COUNT]);
/// # let challenges = Challenges::new(&sampled, Claim { program_digest: [0; 5], input: &[], output: &[] })?;
/// let mut table = [MainRow::ZERO; 2];
/// (table[1][CI], table[1][NIA]) = (33, 16);
/// let (mut aux, mut work) = ([AuxRow::ZERO; 2], [0; work_len(2, 4)]);
/// assert_eq!(extend_strict(&table, &challenges, 4, &mut aux, &mut work), Err(Refusal::UndecodableRow));
///
/// let mut said = vec![];
/// for (index, row) in table.iter().enumerate() {
///     match decode(row)? {
///         Decoded::Read(_) => {}
///         reason => said.push(format!("row {index}: {reason}")),
///     }
/// }
/// assert_eq!(said, ["row 1: argument 16 of dup is not in 0 to 15"]);
/// # Ok::<(), Refusal>(())
/// ```
///
/// # Errors
///
/// As [`extend`], and [`Refusal::UndecodableRow`] if a row does not decode, after [`Refusal::WordNotBelowP`] and before
/// [`Refusal::ZeroDenominator`].
pub fn extend_strict(
    main: &[MainRow],
    challenges: &Challenges,
    chunk: usize,
    aux: &mut [AuxRow],
    work: &mut [u64],
) -> Result<(), Refusal> {
    answer(abi::extend_strict(words(main), words(from_ref(challenges)), chunk, words_mut(aux), work), ())
}

/// What [`check`] finds. It is shown as `yes`, or as the place of the no.
#[derive(Debug, Clone, Copy, PartialEq, Eq, Hash)]
#[must_use = "a no is not an error"]
pub enum Verdict {
    /// The columns are just those that [`extend`] writes.
    Yes,
    /// They are not: in this place first.
    No(Place),
}

/// A cell that does not follow, by the entries of its row, from the cell before it: that of its column in the row before, or, in row
/// 0, what the column starts from. Rows before it are right, and so are the columns before it in its row.
#[derive(Debug, Clone, Copy, PartialEq, Eq, Hash)]
pub struct Place {
    /// The row, counted from 0.
    pub row: usize,
    /// The column.
    pub column: ProcessorAuxColumn,
}

impl Display for Verdict {
    fn fmt(&self, f: &mut Formatter<'_>) -> Written {
        match self {
            Verdict::Yes => f.pad("yes"),
            Verdict::No(place) => place.fmt(f),
        }
    }
}

impl Display for Place {
    fn fmt(&self, f: &mut Formatter<'_>) -> Written {
        let Place { row, column } = self;
        let before = if *row == 0 { "its start" } else { "the row before" };
        write!(f, "row {row}: column {column} does not follow from {before}")
    }
}

/// Checks columns made elsewhere: whether [`extend`], at any chunk length, would write just these, and if not, where they go wrong.
/// Nothing is inverted.
///
/// ```
/// use tealbobbin::air::ProcessorAuxColumn::RamTablePermArg;
/// # use tealbobbin::challenges::{Challenges, Claim, SampledChallenges};
/// # use tealbobbin::field::Element;
/// use tealbobbin::processor::{check, extend, work_len, AuxRow, MainRow, Place, Verdict};
///
/// # let sampled = SampledChallenges([Element::from(2); Challenges::SAMPLE_COUNT]);
/// # let challenges = Challenges::new(&sampled, Claim { program_digest: [0; 5], input: &[], output: &[] })?;
/// let table = [MainRow::ZERO; 4];
/// let (mut aux, mut work) = ([AuxRow::ZERO; 4], [0; work_len(4, 4)]);
/// extend(&table, &challenges, 4, &mut aux, &mut work)?;
/// assert_eq!(check(&table, &challenges, &aux)?, Verdict::Yes);
///
/// aux[3][RamTablePermArg].0[1] = 7;
/// let verdict = check(&table, &challenges, &aux)?;
/// assert_eq!(verdict, Verdict::No(Place { row: 3, column: RamTablePermArg }));
/// assert_eq!(verdict.to_string(), "row 3: column RamTablePermArg does not follow from the row before");
/// # Ok::<(), tealbobbin::Refusal>(())
/// ```
///
/// # Errors
///
/// [`Refusal::SliceLength`] unless `offered` has a row for each row of `main`, then [`Refusal::RowCount`] if rows are 0 or over
/// [`MAX_ROWS`], then [`Refusal::WordNotBelowP`] in `main` or `offered`, then [`Refusal::ZeroDenominator`] as [`extend`], whatever
/// `offered` holds.
pub fn check(main: &[MainRow], challenges: &Challenges, offered: &[AuxRow]) -> Result<Verdict, Refusal> {
    let mut verdict = [0; 3];
    let number = abi::check_at(words(main), words(from_ref(challenges)), words(offered), &mut verdict);
    let verdict = match verdict {
        [1, ..] => Verdict::Yes,
        [_, row, column] => Verdict::No(Place { row: row as usize, column: ProcessorAuxColumn::ALL[column as usize] }),
    };
    answer(number, verdict)
}

/// Whether [`check`] says yes.
///
/// # Errors
///
/// As [`check`].
pub fn accepts(main: &[MainRow], challenges: &Challenges, offered: &[AuxRow]) -> Result<bool, Refusal> {
    let mut verdict = [0];
    let number = abi::check(words(main), words(from_ref(challenges)), words(offered), &mut verdict);
    answer(number, verdict == [1])
}

#[cfg(test)]
mod tests {
    extern crate std;

    use std::string::ToString;

    use super::*;
    use crate::air::ProcessorAuxColumn::*;
    use crate::air::ProcessorMainColumn::*;
    use crate::challenges::{Claim, SampledChallenges};
    use crate::field::P;

    fn challenges() -> Challenges {
        let sampled = SampledChallenges([Element::from(10); Challenges::SAMPLE_COUNT]);
        Challenges::new(&sampled, Claim { program_digest: [0; 5], input: &[], output: &[] }).unwrap()
    }

    #[test]
    fn fill_and_pad() {
        let mut trace = [MainRow([7; MAIN_WIDTH]); 3];
        trace[2][CI] = 0;
        let mut table = [MainRow([9; MAIN_WIDTH]); 5];
        fill(&trace, ClkJumpDiffs { op_stack: &[2, 0], ram: &[2], jump_stack: &[0, 0] }, &mut table).unwrap();
        assert_eq!(table.map(|row| row[ClockJumpDifferenceLookupMultiplicity]), [3, 0, 2, 9, 9]);
        assert_eq!(table.map(|row| row[CI]), [7, 7, 0, 9, 9]);
        pad(&mut table, 3).unwrap();
        assert_eq!(table.map(|row| row[ClockJumpDifferenceLookupMultiplicity]), [3, 2, 2, 0, 0]);
        assert_eq!(table.map(|row| row[CLK]), [7, 7, 7, 3, 4]);
        assert_eq!(table.map(|row| row[IsPadding]), [7, 7, 7, 1, 1]);
        assert_eq!(table.map(|row| row[CI]), [7, 7, 0, 0, 0]);
    }

    #[test]
    fn output_absorbed_upward() {
        let mut table = [MainRow::ZERO; 2];
        (table[0][CI], table[0][NIA], table[0][ST0], table[0][ST1]) = (19, 2, 5, 7);
        let (mut aux, mut work) = ([AuxRow::default(); 2], [1; work_len(2, 1)]);
        extend(&table, &challenges(), 1, &mut aux, &mut work).unwrap();
        assert_eq!(aux.map(|row| row[OutputTableEvalArg]), [1, 157].map(Element::from));
        assert_eq!(aux.map(|row| row[InputTableEvalArg]), [Element::ONE; 2]);
        assert_eq!(work, [0; 12]);
    }

    type Extend = fn(&[MainRow], &Challenges, usize, &mut [AuxRow], &mut [u64]) -> Result<(), Refusal>;

    #[test]
    fn strictly() {
        let mut table = [MainRow::ZERO; 3];
        (table[0][CI], table[0][NIA], table[0][ST0]) = (19, 1, 5);
        pad(&mut table, 2).unwrap();
        let extended = |extend: Extend, table: &[MainRow]| {
            let (mut aux, mut work) = ([AuxRow::ZERO; 3], [1; work_len(3, 2)]);
            let answer = extend(table, &challenges(), 2, &mut aux, &mut work);
            (answer, aux, work)
        };
        assert_eq!(extended(extend_strict, &table), extended(extend, &table));
        assert_eq!(extended(extend_strict, &table).1[2][OutputTableEvalArg], Element::from(15));
        let refused = |refusal| (Err(refusal), [AuxRow::ZERO; 3], [1; 12]);
        for row in 0..3 {
            for (ci, nia) in [(7, 0), (33, 16), (73, 0)] {
                let (mut table, other) = (table, (row + 1) % 3);
                (table[row][CI], table[row][NIA]) = (ci, nia);
                assert_eq!(extended(extend_strict, &table), refused(Refusal::UndecodableRow));
                assert_eq!(extended(extend, &table).0, Ok(()));
                // 10 - (10·IP + 10·CI + 10·NIA)
                table[other] = MainRow::ZERO;
                table[other][IP] = 1;
                assert_eq!(extended(extend, &table), refused(Refusal::ZeroDenominator));
                assert_eq!(extended(extend_strict, &table), refused(Refusal::UndecodableRow));
                table[row][HV0] = P;
                assert_eq!(extended(extend_strict, &table), refused(Refusal::WordNotBelowP));
            }
        }
    }

    #[test]
    fn work_by_the_chunk() {
        assert_eq!([1, 2, 3, 4, 8, 9, 10, usize::MAX].map(|chunk| work_len(9, chunk)), [54, 30, 18, 18, 12, 6, 6, 6]);
        assert_eq!([1, 3, 4096, MAX_ROWS, usize::MAX].map(|chunk| work_len(MAX_ROWS, chunk)), [25_165_824, 8_388_612, 6144, 6, 6]);
        assert_eq!([(9, 0), (0, 0), (0, 4), (usize::MAX, 0)].map(|(rows, chunk)| work_len(rows, chunk)), [0; 4]);
        assert_eq!([1, 2, usize::MAX].map(|chunk| work_len(usize::MAX, chunk)), [usize::MAX, usize::MAX, 6]);

        let (table, mut one) = ([MainRow::ZERO; 9], [AuxRow::ZERO; 9]);
        extend(&table, &challenges(), usize::MAX, &mut one, &mut [0; 6]).unwrap();
        for extend in [extend, extend_strict] {
            for chunk in (1..12).chain([usize::MAX]) {
                let stale = ([AuxRow::ZERO; 9], [1; 60]);
                let extended = |table: &[MainRow], words: usize| {
                    let (mut aux, mut work) = stale;
                    let answer = extend(table, &challenges(), chunk, &mut aux, &mut work[..words]);
                    (answer, (aux, work))
                };
                let words = work_len(9, chunk);
                let mut after = (one, [1; 60]);
                after.1[..words].fill(0);
                assert_eq!(extended(&table, words), (Ok(()), after));
                let mut bad = table;
                bad[8][HV0] = P;
                assert_eq!(extended(&bad, words), (Err(Refusal::WordNotBelowP), stale));
                for wrong in (0..=60).filter(|&wrong| wrong != words) {
                    assert_eq!(extended(&bad, wrong), (Err(Refusal::SliceLength), stale));
                }
            }
        }
    }

    /// What both functions say of the columns.
    fn verdict(table: &[MainRow], offered: &[AuxRow]) -> Result<Verdict, Refusal> {
        let verdict = check(table, &challenges(), offered);
        assert_eq!(accepts(table, &challenges(), offered), verdict.map(|verdict| verdict == Verdict::Yes));
        verdict
    }

    #[test]
    fn each_word_offered() {
        let mut table = [MainRow::ZERO; 6];
        for (row, (ci, nia)) in table.iter_mut().zip([(73, 2), (19, 1), (4, 0), (20, 0), (57, 5), (18, 0)]) {
            (row[CI], row[NIA], row[ST0], row[ClockJumpDifferenceLookupMultiplicity]) = (ci, nia, ci + 40, nia);
        }
        let mut columns = [AuxRow::ZERO; 6];
        extend(&table, &challenges(), 4, &mut columns, &mut [0; work_len(6, 4)]).unwrap();
        assert_eq!(verdict(&table, &columns), Ok(Verdict::Yes));
        for row in 0..6 {
            for column in ProcessorAuxColumn::ALL {
                for word in 0..3 {
                    let mut offered = columns;
                    let right = offered[row][column].0[word];
                    offered[row][column].0[word] = if right == 0 { P - 1 } else { right - 1 };
                    assert_eq!(verdict(&table, &offered), Ok(Verdict::No(Place { row, column })));
                    // whatever the later columns and rows hold
                    offered[row].0[column.aux_index() + 1..].fill(Element::ZERO);
                    offered[row + 1..].fill(AuxRow::ZERO);
                    assert_eq!(verdict(&table, &offered), Ok(Verdict::No(Place { row, column })));
                    offered[5].0[0].0[0] = P;
                    assert_eq!(verdict(&table, &offered), Err(Refusal::WordNotBelowP));
                }
            }
        }
    }

    #[test]
    fn refused_before_a_no() {
        let (table, columns) = ([MainRow::ZERO; 3], [AuxRow::ZERO; 3]);
        assert_eq!(verdict(&table, &columns), Ok(Verdict::No(Place { row: 0, column: InputTableEvalArg })));
        // 10 - (10·IP + 10·CI + 10·NIA)
        let mut zero = table;
        zero[2][IP] = 1;
        assert_eq!(verdict(&zero, &columns), Err(Refusal::ZeroDenominator));
        let mut bad = columns;
        bad[2][InputTableEvalArg] = Element::from(P);
        assert_eq!(verdict(&zero, &bad), Err(Refusal::WordNotBelowP));
        zero[2][HV0] = P;
        assert_eq!(verdict(&zero, &columns), Err(Refusal::WordNotBelowP));
        for rows in 0..3 {
            assert_eq!(verdict(&zero, &bad[..rows]), Err(Refusal::SliceLength));
            assert_eq!(verdict(&zero[..rows], &bad), Err(Refusal::SliceLength));
        }
        assert_eq!(verdict(&[], &[]), Err(Refusal::RowCount));
    }

    #[test]
    fn verdicts_shown() {
        let no = |row, column| Verdict::No(Place { row, column }).to_string();
        assert_eq!(Verdict::Yes.to_string(), "yes");
        assert_eq!(no(0, InputTableEvalArg), "row 0: column InputTableEvalArg does not follow from its start");
        assert_eq!(no(1, SpongeEvalArg), "row 1: column SpongeEvalArg does not follow from the row before");
    }

    #[test]
    fn refusals() {
        let (mut table, mut aux) = ([MainRow::ZERO; 2], [AuxRow::ZERO; 2]);
        let four = ClkJumpDiffs { op_stack: &[1], ..ClkJumpDiffs::default() };
        assert_eq!(fill(&[MainRow::ZERO; 3], ClkJumpDiffs::default(), &mut table), Err(Refusal::RowCount));
        assert_eq!(fill(&[MainRow([P; MAIN_WIDTH])], four, &mut table), Err(Refusal::WordNotBelowP));
        assert_eq!(fill(&[MainRow::ZERO], four, &mut table), Err(Refusal::DifferenceTooLarge));
        assert_eq!(pad(&mut table, 3), Err(Refusal::RowCount));
        assert_eq!(pad(&mut table[..1], 1), Err(Refusal::RowCount));
        let mut extended =
            |rows, chunk, aux_rows, work| extend(&table[..rows], &challenges(), chunk, &mut aux[..aux_rows], &mut [0; 20][..work]);
        assert_eq!(extended(2, 1, 1, 12), Err(Refusal::SliceLength));
        assert_eq!(extended(2, 1, 2, 13), Err(Refusal::SliceLength));
        assert_eq!(extended(0, 0, 0, 0), Err(Refusal::RowCount));
        assert_eq!(extended(0, 1, 0, 6), Err(Refusal::RowCount));
        assert_eq!(extended(2, 0, 1, 12), Err(Refusal::SliceLength));
        assert_eq!(extended(2, 0, 2, 13), Err(Refusal::ChunkLengthZero));
        assert_eq!(extended(2, 2, 2, 12), Err(Refusal::SliceLength));
        assert_eq!(extended(2, 2, 2, 6), Ok(()));
        assert_eq!(extended(2, 1, 2, 12), Ok(()));
        // 10 - (10·IP + 10·CI + 10·NIA)
        table[1][IP] = 1;
        assert_eq!(extend(&table, &challenges(), 1, &mut aux, &mut [0; 12]), Err(Refusal::ZeroDenominator));
    }
}
