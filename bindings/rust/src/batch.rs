//! Batches: one run's trace, differences, sampled challenges and claim in one row of bytes. docs/BATCH.md has the format.
//!
//! A house fills a batch and writes it, with its rows in the form that it is told, and a station opens it:
//!
//! ```
//! use tealbobbin::batch::{Batch, Form};
//! use tealbobbin::challenges::{Challenges, Claim, SampledChallenges};
//! use tealbobbin::field::Element;
//! use tealbobbin::processor::{ClkJumpDiffs, MainRow};
//!
//! let mut batch = Batch::new();
//! batch
//!     .set_trace(&[MainRow([1; 39]); 3])?
//!     .set_differences(ClkJumpDiffs { op_stack: &[2, 0, 1], ram: &[1, 1], jump_stack: &[] })?
//!     .set_sampled(&SampledChallenges([Element::from(2); Challenges::SAMPLE_COUNT]))
//!     .set_claim(Claim { program_digest: [1, 2, 3, 4, 5], input: &[9, 7], output: &[8] })?;
//! for form in [Form::Plain, Form::Montgomery] {
//!     let mut bytes = vec![0; batch.written_len()];
//!     batch.write(form, &mut bytes)?;
//!
//!     // words are plain once they are opened
//!     let opened = Batch::open(&bytes)?;
//!     assert_eq!(opened.trace(), batch.trace());
//!     assert_eq!(opened.sampled(), batch.sampled());
//!     assert_eq!(opened.claim(), batch.claim());
//!     assert_eq!(opened.differences(), ClkJumpDiffs { op_stack: &[0, 1, 2], ram: &[1, 1], jump_stack: &[] });
//!
//!     // a run has one batch in each form: whoever packs it, in whatever order its differences come, writes these bytes
//!     let mut again = vec![0; opened.written_len()];
//!     opened.write(form, &mut again)?;
//!     assert_eq!(again, bytes);
//! }
//! # Ok::<(), tealbobbin::Refusal>(())
//! ```
//!
//! A proof pads every table to the height of the tallest. Where that is another than this one, the batch says so, and [`terminals`]
//! gives the cells of the last row at that height.

use core::fmt::{Debug, Formatter, Result as Written};
use core::slice::{from_mut, from_ref};

use crate::abi::{self, words, words_mut};
use crate::challenges::{Challenges, Claim, Digest, SampledChallenges};
use crate::field::Element;
use crate::processor::{AuxRow, ClkJumpDiffs, MainRow, MAIN_WIDTH, MAX_ROWS};
use crate::{answer, Refusal};

/// The most bytes of a batch.
pub const MAX_BYTES: usize = 16_384;

/// The most rows of a batch's trace.
pub const MAX_TRACE_ROWS: usize = 32;

/// The most differences in each of a batch's three lists.
pub const MAX_DIFFERENCES: usize = 128;

/// The most words of a batch's input, and of its output.
pub const MAX_IO_WORDS: usize = 64;

/// The most that k may be where a batch sets 2^k rows: these are [`MAX_ROWS`].
pub const MAX_LOG2_HEIGHT: u32 = 22;

const _: () = assert!(1 << MAX_LOG2_HEIGHT == MAX_ROWS);

/// The form of the words in a batch's rows. It is no part of what the batch brings: opened, all words are plain.
#[derive(Debug, Clone, Copy, Default, PartialEq, Eq, Hash)]
pub enum Form {
    /// Plain words: command 02.
    #[default]
    Plain = 0,
    /// Words in [Montgomery form](crate::field::Montgomery): command 0A.
    Montgomery = 1,
}

/// What a batch brings, opened or to be written. It takes 16 KB and allocates nothing.
#[derive(Clone)]
pub struct Batch {
    trace: [MainRow; MAX_TRACE_ROWS],
    op_stack: [u64; MAX_DIFFERENCES],
    ram: [u64; MAX_DIFFERENCES],
    jump_stack: [u64; MAX_DIFFERENCES],
    sampled: SampledChallenges,
    program_digest: Digest,
    input: [u64; MAX_IO_WORDS],
    output: [u64; MAX_IO_WORDS],
    /// Of trace, op stack, RAM, jump stack, input and output: how much was brought. Then k, or 0 for none.
    counts: [u64; 7],
}

impl Batch {
    /// No rows, differences, input and output; challenges and digest of zeros; the height that the trace sets.
    pub const fn new() -> Batch {
        Batch {
            trace: [MainRow::ZERO; MAX_TRACE_ROWS],
            op_stack: [0; MAX_DIFFERENCES],
            ram: [0; MAX_DIFFERENCES],
            jump_stack: [0; MAX_DIFFERENCES],
            sampled: SampledChallenges([Element::ZERO; Challenges::SAMPLE_COUNT]),
            program_digest: [0; 5],
            input: [0; MAX_IO_WORDS],
            output: [0; MAX_IO_WORDS],
            counts: [0; 7],
        }
    }

    /// Reads a batch of at most [`MAX_BYTES`] bytes, with rows of either [`Form`].
    ///
    /// # Errors
    ///
    /// [`Refusal::SliceLength`] if it has more bytes; then, at the first command with a fault, [`Refusal::UnknownCommand`],
    /// [`Refusal::BatchCutOff`], [`Refusal::CommandOutOfPlace`], [`Refusal::CommandOutOfOrder`], [`Refusal::RowCount`],
    /// [`Refusal::HeightOutOfRange`] or [`Refusal::WordNotBelowP`], in this order.
    pub fn open(bytes: &[u8]) -> Result<Batch, Refusal> {
        let mut batch = Batch::new();
        let slices = [
            words_mut(&mut batch.trace),
            &mut batch.op_stack,
            &mut batch.ram,
            &mut batch.jump_stack,
            words_mut(from_mut(&mut batch.sampled)),
            &mut batch.program_digest,
            &mut batch.input,
            &mut batch.output,
        ];
        let number = abi::open(bytes, slices, &mut batch.counts);
        answer(number, batch)
    }

    /// The trace becomes these rows.
    ///
    /// # Errors
    ///
    /// [`Refusal::RowCount`] if there are over [`MAX_TRACE_ROWS`].
    pub fn set_trace(&mut self, trace: &[MainRow]) -> Result<&mut Batch, Refusal> {
        self.trace.get_mut(..trace.len()).ok_or(Refusal::RowCount)?.copy_from_slice(trace);
        self.counts[0] = trace.len() as u64;
        Ok(self)
    }

    /// The clock jump differences become these, each list in any order.
    ///
    /// # Errors
    ///
    /// [`Refusal::SliceLength`] if a list has over [`MAX_DIFFERENCES`].
    pub fn set_differences(&mut self, differences: ClkJumpDiffs<'_>) -> Result<&mut Batch, Refusal> {
        let ClkJumpDiffs { op_stack, ram, jump_stack } = differences;
        if [op_stack, ram, jump_stack].iter().any(|list| list.len() > MAX_DIFFERENCES) {
            return Err(Refusal::SliceLength);
        }
        self.op_stack[..op_stack.len()].copy_from_slice(op_stack);
        self.ram[..ram.len()].copy_from_slice(ram);
        self.jump_stack[..jump_stack.len()].copy_from_slice(jump_stack);
        self.counts[1..4].copy_from_slice(&[op_stack, ram, jump_stack].map(|list| list.len() as u64));
        Ok(self)
    }

    /// The sampled challenges become these.
    pub fn set_sampled(&mut self, sampled: &SampledChallenges) -> &mut Batch {
        self.sampled.clone_from(sampled);
        self
    }

    /// The program's digest, input and output become the claim's.
    ///
    /// # Errors
    ///
    /// [`Refusal::SliceLength`] if input or output has over [`MAX_IO_WORDS`].
    pub fn set_claim(&mut self, claim: Claim<'_>) -> Result<&mut Batch, Refusal> {
        let Claim { program_digest, input, output } = claim;
        if input.len() > MAX_IO_WORDS || output.len() > MAX_IO_WORDS {
            return Err(Refusal::SliceLength);
        }
        self.program_digest = program_digest;
        self.input[..input.len()].copy_from_slice(input);
        self.output[..output.len()].copy_from_slice(output);
        self.counts[4..6].copy_from_slice(&[input, output].map(|words| words.len() as u64));
        Ok(self)
    }

    /// The table is to have 2^k rows, or, with `None`, the height that the trace sets.
    ///
    /// # Errors
    ///
    /// [`Refusal::HeightOutOfRange`] if k is 0 or over [`MAX_LOG2_HEIGHT`]. That 2^k rows hold the trace is asked by [`Batch::write`].
    pub fn set_log2_height(&mut self, k: Option<u32>) -> Result<&mut Batch, Refusal> {
        self.counts[6] = match k {
            None => 0,
            Some(k @ 1..=MAX_LOG2_HEIGHT) => k.into(),
            Some(_) => return Err(Refusal::HeightOutOfRange),
        };
        Ok(self)
    }

    /// The bytes that [`Batch::write`] writes, at most [`MAX_BYTES`].
    pub fn written_len(&self) -> usize {
        let [rows, words @ .., _] = self.counts;
        let (row, word, height) = (1 + 8 * MAIN_WIDTH, 1 + 8, self.log2_height().map_or(0, |_| 1 + 1));
        let others = (1 + 4) + (1 + 8 * self.program_digest.len()) + (1 + 8 * SampledChallenges::WORDS) + 1;
        others + height + row * rows as usize + word * words.iter().sum::<u64>() as usize
    }

    /// Writes the batch into [`written_len`](Batch::written_len) bytes, its rows in this form, the differences sorted. Batches with
    /// equal contents, in whatever order their differences are, have equal bytes in each form.
    ///
    /// # Errors
    ///
    /// [`Refusal::SliceLength`] at another number of bytes, then [`Refusal::RowCount`] if there is no row, then
    /// [`Refusal::HeightOutOfRange`] if the height that was set is below the rows, then [`Refusal::WordNotBelowP`].
    pub fn write(&self, form: Form, bytes: &mut [u8]) -> Result<(), Refusal> {
        let (ClkJumpDiffs { op_stack, ram, jump_stack }, claim) = (self.differences(), self.claim());
        let slices = [
            words(self.trace()),
            op_stack,
            ram,
            jump_stack,
            words(from_ref(&self.sampled)),
            &self.program_digest,
            claim.input,
            claim.output,
        ];
        answer(abi::write(slices, form as u64, self.counts[6], bytes), ())
    }

    /// The trace.
    pub fn trace(&self) -> &[MainRow] {
        &self.trace[..self.counts[0] as usize]
    }

    /// The clock jump differences: each list in the order in which it was set, or not descending in a batch that was opened.
    pub fn differences(&self) -> ClkJumpDiffs<'_> {
        ClkJumpDiffs {
            op_stack: &self.op_stack[..self.counts[1] as usize],
            ram: &self.ram[..self.counts[2] as usize],
            jump_stack: &self.jump_stack[..self.counts[3] as usize],
        }
    }

    /// The sampled challenges.
    pub fn sampled(&self) -> &SampledChallenges {
        &self.sampled
    }

    /// The program's digest, and input and output in their order.
    pub fn claim(&self) -> Claim<'_> {
        Claim {
            program_digest: self.program_digest,
            input: &self.input[..self.counts[4] as usize],
            output: &self.output[..self.counts[5] as usize],
        }
    }

    /// k, if the table is to have 2^k rows; `None` if the trace sets its height.
    pub fn log2_height(&self) -> Option<u32> {
        (self.counts[6] > 0).then_some(self.counts[6] as u32)
    }

    /// The rows of the main table: 2^k where [`log2_height`](Batch::log2_height) has k, and otherwise the smallest power of two that
    /// holds the trace, at least 2. [`terminals`] needs no table of this height.
    pub fn padded_height(&self) -> usize {
        self.log2_height().map_or(self.trace().len().next_power_of_two().max(2), |k| 1 << k)
    }
}

/// The cells of the last row of the table that a batch leads to: those that [`extend`](crate::processor::extend) writes there, once
/// the table is filled and padded to [`padded_height`](Batch::padded_height). It keeps no table: its memory is the same at every
/// height, and its time grows with that.
///
/// ```
/// use tealbobbin::air::ProcessorAuxColumn::ClockJumpDifferenceLookupServerLogDerivative;
/// use tealbobbin::batch::{terminals, Batch, Form};
/// use tealbobbin::field::Element;
///
/// # std::env::set_current_dir(concat!(env!("CARGO_MANIFEST_DIR"), "/../.."))?;
/// let mut batch = Batch::open(&std::fs::read("examples/document-01.batch")?)?;
/// assert_eq!((batch.log2_height(), batch.padded_height()), (None, 2));
///
/// // another table is the tallest, and has four million rows
/// batch.set_log2_height(Some(22))?;
/// assert_eq!(batch.padded_height(), 4_194_304);
/// let mut bytes = vec![0; batch.written_len()];
/// batch.write(Form::Plain, &mut bytes)?;
///
/// let last = terminals(&bytes)?;
/// assert_eq!(last[ClockJumpDifferenceLookupServerLogDerivative], Element::from(4_194_303));
/// # Ok::<(), Box<dyn std::error::Error>>(())
/// ```
///
/// # Errors
///
/// Those of [`Batch::open`], then [`Refusal::DifferenceTooLarge`] if a difference is not below the number of trace rows, then
/// [`Refusal::ZeroDenominator`] if an entry of a lookup column, padding rows among them, has denominator zero.
pub fn terminals(bytes: &[u8]) -> Result<AuxRow, Refusal> {
    let mut last = AuxRow::ZERO;
    let number = abi::terminals(bytes, words_mut(from_mut(&mut last)));
    answer(number, last)
}

impl Default for Batch {
    fn default() -> Batch {
        Batch::new()
    }
}

/// Equal contents, the differences in equal order.
impl PartialEq for Batch {
    fn eq(&self, other: &Batch) -> bool {
        self.trace() == other.trace()
            && self.differences() == other.differences()
            && self.sampled() == other.sampled()
            && self.claim() == other.claim()
            && self.log2_height() == other.log2_height()
    }
}

impl Eq for Batch {}

impl Debug for Batch {
    fn fmt(&self, f: &mut Formatter<'_>) -> Written {
        f.debug_struct("Batch")
            .field("trace", &self.trace())
            .field("differences", &self.differences())
            .field("sampled", self.sampled())
            .field("claim", &self.claim())
            .field("log2_height", &self.log2_height())
            .finish()
    }
}

#[cfg(test)]
mod tests {
    use super::*;
    use crate::air::ProcessorAuxColumn::ClockJumpDifferenceLookupServerLogDerivative;
    use crate::field::P;

    const CLAIM: Claim<'_> = Claim { program_digest: [0; 5], input: &[], output: &[] };

    const FORMS: [Form; 2] = [Form::Plain, Form::Montgomery];

    #[test]
    fn the_example() {
        let mut batch = Batch::new();
        batch.set_trace(&[MainRow::ZERO]).unwrap().set_sampled(&SampledChallenges([Element::from(2); Challenges::SAMPLE_COUNT]));
        let files: [&[u8; 1777]; 2] = [
            include_bytes!("../../../examples/document-01.batch"),
            include_bytes!("../../../examples/document-01-montgomery.batch"),
        ];
        for (form, file) in FORMS.into_iter().zip(files) {
            let mut bytes = [0; 1777];
            assert_eq!(batch.write(form, &mut bytes), Ok(()));
            assert_eq!(&bytes, file);
            assert_eq!(Batch::open(&bytes).as_ref(), Ok(&batch));
        }
    }

    /// Rows of both forms in one batch, whichever comes first.
    #[test]
    fn a_mixture() {
        let mut batch = Batch::new();
        batch.set_trace(&[MainRow::ZERO; 3]).unwrap();
        let [plain, montgomery] = FORMS.map(|form| {
            let mut bytes = [0; 1464 + 3 * 313];
            batch.write(form, &mut bytes).unwrap();
            bytes
        });
        for place in [1463, 1463 + 313, 1463 + 2 * 313] {
            assert_eq!((plain[place], montgomery[place]), (2, 10));
            for (whole, other) in [(plain, 10), (montgomery, 2)] {
                let mut bytes = whole;
                bytes[place] = other;
                assert_eq!(Batch::open(&bytes), Err(Refusal::CommandOutOfPlace));
            }
        }
    }

    #[test]
    fn as_much_as_it_holds() {
        let words = [7; MAX_DIFFERENCES + 1];
        let (list, io) = (&words[..MAX_DIFFERENCES], &words[..MAX_IO_WORDS]);
        let mut batch = Batch::new();
        batch.set_trace(&[MainRow([8; MAIN_WIDTH]); MAX_TRACE_ROWS]).unwrap();
        batch.set_differences(ClkJumpDiffs { op_stack: list, ram: list, jump_stack: list }).unwrap();
        batch.set_claim(Claim { input: io, output: io, ..CLAIM }).unwrap();
        let full = batch.clone();
        assert_eq!(batch.set_trace(&[MainRow::ZERO; MAX_TRACE_ROWS + 1]).err(), Some(Refusal::RowCount));
        for list in 0..3 {
            let [op_stack, ram, jump_stack] = core::array::from_fn(|other| if other == list { &words[..] } else { &[] });
            let differences = ClkJumpDiffs { op_stack, ram, jump_stack };
            assert_eq!(batch.set_differences(differences).err(), Some(Refusal::SliceLength));
        }
        let longer = &words[..MAX_IO_WORDS + 1];
        assert_eq!(batch.set_claim(Claim { input: longer, ..CLAIM }).err(), Some(Refusal::SliceLength));
        assert_eq!(batch.set_claim(Claim { output: longer, ..CLAIM }).err(), Some(Refusal::SliceLength));
        assert_eq!(batch, full);
        for form in FORMS {
            let mut bytes = [0; 16_088];
            assert_eq!(batch.write(form, &mut bytes), Ok(()));
            assert_eq!(Batch::open(&bytes).as_ref(), Ok(&full));
        }
    }

    #[test]
    fn set_again() {
        let (mut batch, mut bytes) = (Batch::default(), [0; 1777 + 9]);
        batch.set_trace(&[MainRow([1; MAIN_WIDTH]); 5]).unwrap().set_trace(&[MainRow::ZERO]).unwrap();
        batch.set_claim(Claim { input: &[1, 2], output: &[3], ..CLAIM }).unwrap();
        batch.set_claim(Claim { output: &[4], ..CLAIM }).unwrap();
        batch.set_differences(ClkJumpDiffs { op_stack: &[1, 2], ram: &[3], jump_stack: &[4] }).unwrap();
        batch.set_differences(ClkJumpDiffs::default()).unwrap();
        assert_eq!(batch.write(Form::default(), &mut bytes), Ok(()));
        assert_eq!(Batch::open(&bytes).unwrap().claim(), Claim { output: &[4], ..CLAIM });
    }

    /// Every k, with every number of rows.
    #[test]
    fn heights() {
        let mut batch = Batch::new();
        for rows in 1..=MAX_TRACE_ROWS {
            batch.set_trace(&[MainRow::ZERO; MAX_TRACE_ROWS][..rows]).unwrap().set_log2_height(None).unwrap();
            let without = batch.clone();
            let (length, height) = (batch.written_len(), batch.padded_height());
            assert_eq!((batch.log2_height(), height.is_power_of_two(), height >= rows), (None, true, true));
            for k in 1..=MAX_LOG2_HEIGHT {
                batch.set_log2_height(Some(k)).unwrap();
                assert_eq!((batch.log2_height(), batch.padded_height(), batch.written_len()), (Some(k), 1 << k, length + 2));
                for form in FORMS {
                    let mut room = [0; 16_090];
                    let bytes = &mut room[..length + 2];
                    if 1 << k < rows {
                        assert_eq!(batch.write(form, bytes), Err(Refusal::HeightOutOfRange));
                        assert_eq!(*bytes, [0; 16_090][..length + 2]);
                        continue;
                    }
                    assert_eq!(batch.write(form, bytes), Ok(()));
                    assert_eq!(bytes[..7], [1, rows as u8, 0, 0, 0, 11, k as u8]);
                    let opened = Batch::open(bytes).unwrap();
                    assert_eq!(opened, batch);
                    assert_ne!(opened, without);
                    for wrong in [0, MAX_LOG2_HEIGHT as u8 + 1, 255] {
                        bytes[6] = wrong;
                        assert_eq!(Batch::open(bytes), Err(Refusal::HeightOutOfRange));
                    }
                }
            }
        }
        for k in [0, MAX_LOG2_HEIGHT + 1, 256 + 1, u32::MAX] {
            assert_eq!(batch.set_log2_height(Some(k)).err(), Some(Refusal::HeightOutOfRange));
            assert_eq!(batch.log2_height(), Some(MAX_LOG2_HEIGHT));
        }
    }

    /// The height that the trace would set anyway leads to the same cells, by other bytes.
    #[test]
    fn cells() {
        let example = include_bytes!("../../../examples/document-01.batch");
        let due = AuxRow([1, 1, 9223372034707292161, 1, 1, 0, 1, 1, 1, 0, 1].map(Element::from));
        assert_eq!(terminals(example), Ok(due));
        let mut batch = Batch::open(example).unwrap();
        let mut bytes = [0; 1779 + 9];
        for k in 1..=10 {
            batch.set_log2_height(Some(k)).unwrap().write(Form::Plain, &mut bytes[..1779]).unwrap();
            let mut due = due;
            due[ClockJumpDifferenceLookupServerLogDerivative] = Element::from((1 << k) - 1);
            assert_eq!(terminals(&bytes[..1779]), Ok(due));
        }
        assert_eq!(terminals(&bytes[..1778]), Err(Refusal::BatchCutOff));
        assert_eq!(terminals(&[0; MAX_BYTES + 1]), Err(Refusal::SliceLength));
        batch.set_differences(ClkJumpDiffs { ram: &[1], ..ClkJumpDiffs::default() }).unwrap();
        batch.write(Form::Plain, &mut bytes).unwrap();
        assert_eq!(terminals(&bytes), Err(Refusal::DifferenceTooLarge));
        // the clock's indeterminate is row 1's CLK, and row 1 is padding
        batch.set_differences(ClkJumpDiffs::default()).unwrap();
        batch
            .set_sampled(&SampledChallenges([Element::ONE; Challenges::SAMPLE_COUNT]))
            .write(Form::Plain, &mut bytes[..1779])
            .unwrap();
        assert_eq!(terminals(&bytes[..1779]), Err(Refusal::ZeroDenominator));
    }

    #[test]
    fn refusals() {
        for form in FORMS {
            let (mut batch, mut bytes) = (Batch::new(), [9; 1777]);
            assert_eq!(batch.written_len(), 1464);
            assert_eq!(batch.write(form, &mut bytes[..1464]), Err(Refusal::RowCount));
            assert_eq!(batch.write(form, &mut bytes[..1463]), Err(Refusal::SliceLength));
            batch.set_trace(&[MainRow([P; MAIN_WIDTH])]).unwrap();
            assert_eq!(batch.write(form, &mut bytes[..1776]), Err(Refusal::SliceLength));
            assert_eq!(batch.write(form, &mut bytes), Err(Refusal::WordNotBelowP));
            assert_eq!(bytes, [9; 1777]);
        }
    }
}
