//! The original's processor table, compiled from its own files: what the library is compared with and raced against.
//! Lent slices hold words below p, whole rows of 39 words, and elements of three words, as at the library's own functions.

// what the originals have beyond fill, pad, extension, challenges and scans
#![allow(dead_code)]

extern crate assorted as arbitrary;
extern crate assorted as itertools;
extern crate assorted as num_traits;
extern crate assorted as strum;

use std::cell::Cell;
use std::panic::{AssertUnwindSafe, catch_unwind};
use std::sync::Once;

use isa::instruction::{Instruction, InstructionError};
use isa::op_stack::{NumberOfWords, OpStackElement};
use ndarray::prelude::*;
use num_traits::{ConstOne, ConstZero};
pub use tealbobbin::processor::{AUX_WIDTH, MAIN_WIDTH};
use twenty_first::prelude::*;

use crate::aet::AlgebraicExecutionTrace;
use crate::ndarray_helper::par_zeros;
use crate::prelude::Claim;
use crate::table::running_arguments::{par_running_affine_maps, par_running_product, par_running_sum, par_scan};

include!(concat!(env!("OUT_DIR"), "/root.rs"));

mod aet;
pub mod constraints;
mod profiler;
pub mod rows;
mod table;

mod prelude {
    use twenty_first::prelude::*;

    pub struct Claim {
        pub program_digest: Digest,
        pub input: Vec<BFieldElement>,
        pub output: Vec<BFieldElement>,
    }
}

/// The original panicked.
#[derive(Debug, Copy, Clone, Eq, PartialEq)]
pub struct Panicked;

thread_local! {
    static CATCHING: Cell<bool> = const { Cell::new(false) };
}

/// Runs the original; a panic says nothing on the terminal.
fn caught<T>(run: impl FnOnce() -> T) -> Result<T, Panicked> {
    static QUIET: Once = Once::new();
    QUIET.call_once(|| {
        let loud = std::panic::take_hook();
        std::panic::set_hook(Box::new(move |panic| {
            if !CATCHING.get() {
                loud(panic)
            }
        }));
    });
    CATCHING.set(true);
    let answer = catch_unwind(AssertUnwindSafe(run));
    CATCHING.set(false);
    answer.map_err(|_| Panicked)
}

fn base(words: &[u64]) -> Vec<BFieldElement> {
    words.iter().map(|&word| bfe!(word)).collect()
}

fn elements(words: &[u64]) -> Vec<XFieldElement> {
    words.chunks_exact(3).map(|c| XFieldElement::new([bfe!(c[0]), bfe!(c[1]), bfe!(c[2])])).collect()
}

fn words(elements: &[XFieldElement]) -> Vec<u64> {
    elements.iter().flat_map(|element| element.coefficients.map(|c| c.value())).collect()
}

/// What the row's CI and NIA stand for, in the library's words: 1 and the opcode; 0 and 0 where the original has no instruction for
/// the opcode; where it has and refuses the argument, the word for the argument's type, and the opcode.
pub fn decode(ci: u64, nia: u64) -> [u64; 2] {
    let read = Instruction::try_from(bfe!(ci)).and_then(|instruction| match instruction.arg() {
        Some(_) => instruction.change_arg(bfe!(nia)),
        None => Ok(instruction),
    });
    match read {
        Ok(instruction) => [1, instruction.opcode().into()],
        Err(InstructionError::InvalidOpcode(_) | InstructionError::OutOfRangeOpcode(_)) => [0, 0],
        Err(InstructionError::IllegalArgument(instruction, _)) => [class(instruction), instruction.opcode().into()],
        Err(error) => panic!("decoding {ci} and {nia}: {error:?}"),
    }
}

/// The word for the type that the original gives the instruction's argument.
fn class(instruction: Instruction) -> u64 {
    use isa::instruction::AnInstruction::*;
    match instruction {
        Pick(argument) | Place(argument) | Dup(argument) | Swap(argument) => word(argument),
        Pop(argument) | Divine(argument) | ReadMem(argument) | WriteMem(argument) | ReadIo(argument) | WriteIo(argument) => {
            word(argument)
        }
        other => panic!("{other:?} takes no such argument"),
    }
}

fn word<T: Argument>(_: T) -> u64 {
    T::OUTSIDE
}

/// An argument's type, with the library's word for what is outside of it.
trait Argument {
    const OUTSIDE: u64;
}

impl Argument for OpStackElement {
    const OUTSIDE: u64 = 2;
}

impl Argument for NumberOfWords {
    const OUTSIDE: u64 = 3;
}

/// The word that the original keeps for a plain one.
pub fn kept(word: u64) -> u64 {
    bfe!(word).raw_u64()
}

/// The plain word for one that the original keeps.
pub fn plain(kept: u64) -> u64 {
    BFieldElement::from_raw_u64(kept).value()
}

/// Of words that the original keeps: the sum, the product and the inverse, as it keeps them.
pub fn kept_sum(a: u64, b: u64) -> u64 {
    (BFieldElement::from_raw_u64(a) + BFieldElement::from_raw_u64(b)).raw_u64()
}

pub fn kept_product(a: u64, b: u64) -> u64 {
    (BFieldElement::from_raw_u64(a) * BFieldElement::from_raw_u64(b)).raw_u64()
}

pub fn kept_inverse(a: u64) -> Result<u64, Panicked> {
    caught(|| BFieldElement::from_raw_u64(a).inverse().raw_u64())
}

/// All 63 challenges, from the sampled ones and the claim.
pub fn challenges(sampled: &[u64], digest: &[u64; 5], input: &[u64], output: &[u64]) -> Result<Vec<u64>, Panicked> {
    let claim = Claimed::new(digest, input, output);
    caught(|| claim.challenges(Sampled::new(sampled)).words())
}

/// The table after fill.
pub fn fill(trace: &[u64], op_stack: &[u64], ram: &[u64], jump_stack: &[u64], table: &[u64]) -> Result<Vec<u64>, Panicked> {
    let (trace, mut table) = (Trace::new(trace), Main::new(table, Order::Rows));
    caught(|| table.fill(&trace, Differences::new([op_stack, ram, jump_stack])))?;
    Ok(table.words())
}

/// The table after pad.
pub fn pad(table: &[u64], table_len: usize) -> Result<Vec<u64>, Panicked> {
    let mut table = Main::new(table, Order::Rows);
    caught(|| table.pad(table_len))?;
    Ok(table.words())
}

/// The auxiliary table.
pub fn extend(main: &[u64], challenges: &[u64]) -> Result<Vec<u64>, Panicked> {
    let mut extension = Extension::new(main, challenges, Order::Rows);
    caught(|| extension.run())?;
    Ok(extension.words())
}

/// The last row's cells of the table of so many rows for what a batch brings: trace, op stack, RAM, jump stack, sampled, digest,
/// input and output. 4 where fill panics, 6 where extension does.
pub fn terminals(slices: [&[u64]; 8], height: usize) -> Result<[u64; 3 * AUX_WIDTH], u32> {
    let [trace, op_stack, ram, jump_stack, sampled, digest, input, output] = slices;
    let record = challenges(sampled, digest.try_into().expect("five words"), input, output).expect("59 elements");
    let mut extension = Extension::blank(height, &record, Order::Rows);
    let (trace, differences) = (Trace::new(trace), Differences::new([op_stack, ram, jump_stack]));
    caught(|| extension.main.fill(&trace, differences)).map_err(|_| 4u32)?;
    extension.main.pad(trace.rows());
    caught(|| extension.run()).map_err(|_| 6u32)?;
    Ok(extension.last_row())
}

/// Each map (a, b) becomes the one that applies those up to it: b is what it makes of 0, a + b what it makes of 1.
pub fn scan_maps(items: &[u64]) -> Vec<u64> {
    let maps: Vec<_> = elements(items).chunks_exact(2).map(|map| (map[0], map[1])).collect();
    let of_zero = par_running_affine_maps(maps.clone(), XFieldElement::ZERO);
    let of_one = par_running_affine_maps(maps, XFieldElement::ONE);
    of_one.iter().zip(of_zero).flat_map(|(&one, zero)| words(&[one - zero, zero])).collect()
}

pub fn scan_products(items: &[u64]) -> Vec<u64> {
    let factors: Vec<_> = elements(items).into_iter().map(Some).collect();
    words(&par_running_product(&factors, XFieldElement::ONE))
}

pub fn scan_sums(items: &[u64]) -> Vec<u64> {
    words(&par_running_sum(elements(items), XFieldElement::ZERO))
}

/// How a table lies in memory: the library's are row by row, the original's column by column.
#[derive(Debug, Copy, Clone, Eq, PartialEq)]
pub enum Order {
    Rows,
    Columns,
}

impl Order {
    fn zeros<T: ConstZero + Copy + Send + Sync>(self, rows: usize, columns: usize) -> Array2<T> {
        match self {
            Order::Rows => par_zeros((rows, columns)),
            Order::Columns => par_zeros((rows, columns).f()),
        }
    }
}

/// A trace as the original holds it, row by row.
pub struct Trace(AlgebraicExecutionTrace);

impl Trace {
    pub fn new(words: &[u64]) -> Trace {
        Trace(AlgebraicExecutionTrace { processor_trace: Main::new(words, Order::Rows).0 })
    }

    pub fn rows(&self) -> usize {
        self.0.processor_trace.nrows()
    }

    /// Its rows, in the words that the original keeps.
    pub fn dump(&self) -> Vec<[u64; MAIN_WIDTH]> {
        let trace = self.0.processor_trace.view();
        (0..trace.nrows()).map(|row| std::array::from_fn(|column| trace[[row, column]].raw_u64())).collect()
    }
}

/// The three lists of clock jump differences as the original holds them.
#[derive(Clone)]
pub struct Differences([Vec<BFieldElement>; 3]);

impl Differences {
    pub fn new(lists: [&[u64]; 3]) -> Differences {
        Differences(lists.map(base))
    }
}

/// A main table as the original holds it. Fill and pad panic where the original does.
pub struct Main(Array2<BFieldElement>);

impl Main {
    pub fn new(words: &[u64], order: Order) -> Main {
        let mut table = order.zeros(words.len() / MAIN_WIDTH, MAIN_WIDTH);
        let rows = Array2::from_shape_vec((words.len() / MAIN_WIDTH, MAIN_WIDTH), base(words)).expect("whole rows");
        table.view_mut().assign(&rows);
        Main(table)
    }

    pub fn fill(&mut self, trace: &Trace, differences: Differences) {
        table::fill(self.0.view_mut(), &trace.0, differences.0);
    }

    pub fn pad(&mut self, table_len: usize) {
        table::pad(self.0.view_mut(), table_len);
    }

    pub fn words(&self) -> Vec<u64> {
        let rows = 0..self.0.nrows();
        rows.flat_map(|row| (0..MAIN_WIDTH).map(move |column| self.0.view()[[row, column]].value())).collect()
    }
}

/// Sampled challenges as the original holds them.
#[derive(Clone)]
pub struct Sampled(Vec<XFieldElement>);

impl Sampled {
    pub fn new(words: &[u64]) -> Sampled {
        Sampled(elements(words))
    }
}

/// All challenges as the original holds them.
pub struct Derived(challenges::Challenges);

impl Derived {
    pub fn words(&self) -> Vec<u64> {
        words(&self.0.challenges)
    }
}

/// A claim as the original holds it.
pub struct Claimed(Claim);

impl Claimed {
    pub fn new(digest: &[u64; 5], input: &[u64], output: &[u64]) -> Claimed {
        Claimed(Claim { program_digest: Digest(digest.map(BFieldElement::from)), input: base(input), output: base(output) })
    }

    /// Derives; panics where the original does.
    pub fn challenges(&self, sampled: Sampled) -> Derived {
        Derived(challenges::Challenges::new(sampled.0, &self.0))
    }
}

/// Items of a scan as the original holds them.
pub enum Items {
    Maps(Vec<(XFieldElement, XFieldElement)>),
    Products(Vec<XFieldElement>),
    Sums(Vec<XFieldElement>),
}

impl Items {
    pub fn maps(words: &[u64]) -> Items {
        Items::Maps(elements(words).chunks_exact(2).map(|map| (map[0], map[1])).collect())
    }

    pub fn products(words: &[u64]) -> Items {
        Items::Products(elements(words))
    }

    pub fn sums(words: &[u64]) -> Items {
        Items::Sums(elements(words))
    }

    /// Scans in place, by the steps that the original hands to its scan.
    pub fn scan(&mut self) {
        match self {
            Items::Maps(items) => par_scan(items, |(a, b), (c, d)| (c * a, c * b + d)),
            Items::Products(items) => par_scan(items, |a, b| a * b),
            Items::Sums(items) => par_scan(items, |a, b| a + b),
        }
    }

    pub fn words(&self) -> Vec<u64> {
        match self {
            Items::Maps(items) => items.iter().flat_map(|&(a, b)| words(&[a, b])).collect(),
            Items::Products(items) | Items::Sums(items) => words(items),
        }
    }
}

/// A main table, challenges, and an auxiliary table to extend into, all as the original holds them.
pub struct Extension {
    main: Main,
    challenges: challenges::Challenges,
    aux: Array2<XFieldElement>,
}

impl Extension {
    pub fn new(main: &[u64], challenges: &[u64], order: Order) -> Extension {
        Extension { main: Main::new(main, order), ..Extension::blank(main.len() / MAIN_WIDTH, challenges, order) }
    }

    /// Over a main table of zeros.
    pub fn blank(rows: usize, challenges: &[u64], order: Order) -> Extension {
        let challenges = elements(challenges).try_into().expect("63 challenges");
        Extension {
            main: Main(order.zeros(rows, MAIN_WIDTH)),
            challenges: challenges::Challenges { challenges },
            aux: order.zeros(rows, AUX_WIDTH),
        }
    }

    /// Fills, pads and extends; panics where the original does.
    pub fn from_trace(&mut self, trace: &Trace, differences: Differences) {
        self.main.fill(trace, differences);
        self.main.pad(trace.rows());
        self.run();
    }

    /// Extends; panics where the original does.
    pub fn run(&mut self) {
        table::extend(self.main.0.view(), self.aux.view_mut(), &self.challenges);
    }

    /// The auxiliary table, row by row.
    pub fn words(&self) -> Vec<u64> {
        (0..self.aux.nrows()).flat_map(|row| self.row(row)).collect()
    }

    /// The last row of it.
    pub fn last_row(&self) -> [u64; 3 * AUX_WIDTH] {
        self.row(self.aux.nrows() - 1)
    }

    fn row(&self, row: usize) -> [u64; 3 * AUX_WIDTH] {
        let cells: [XFieldElement; AUX_WIDTH] = std::array::from_fn(|column| self.aux.view()[[row, column]]);
        words(&cells).try_into().expect("three words an element")
    }
}
