//! Runs, and the rows of their traces. What a case leaves free are random words, as good as distinct, so that a misread one shows.

use compare::plain::extension::column::{CI, IS_PADDING, NIA, ST0};
use compare::random::Random;
use oracle::MAIN_WIDTH;
use oracle::rows::OPCODES;
use tealbobbin::batch::MAX_TRACE_ROWS;
use tealbobbin::field::P;

/// A row's words.
pub type Row = [u64; MAIN_WIDTH];

/// A run, and the number that the original answers to it.
pub struct Case {
    pub name: &'static str,
    pub trace: Vec<Row>,
    /// Of op stack, RAM and jump stack.
    pub differences: [Vec<u64>; 3],
    pub sampled: [u64; 177],
    pub digest: [u64; 5],
    pub input: Vec<u64>,
    pub output: Vec<u64>,
    /// Of the height that 0B sets, 0 without it.
    pub log2_height: u32,
    pub number: u8,
}

impl Case {
    /// Without differences, input and output, and with no refusal.
    pub fn new(random: &mut Random, name: &'static str, trace: Vec<Row>) -> Case {
        let (sampled, digest) = (words(random), words(random));
        let [input, output] = Default::default();
        Case { name, trace, differences: Default::default(), sampled, digest, input, output, log2_height: 0, number: 0 }
    }

    /// Each row once in the op stack's list, each second in RAM's, each third in the jump stack's.
    pub fn counted(random: &mut Random, name: &'static str, trace: Vec<Row>) -> Case {
        let rows = trace.len() as u64;
        let differences = [1, 2, 3].map(|step| (0..rows).step_by(step).collect());
        Case { differences, ..Case::new(random, name, trace) }
    }

    /// The rows of the main table.
    pub fn height(&self) -> usize {
        match self.log2_height {
            0 => self.trace.len().next_power_of_two().max(2),
            k => 1 << k,
        }
    }
}

/// Any words below p.
pub fn words<const N: usize>(random: &mut Random) -> [u64; N] {
    std::array::from_fn(|_| random.word() % P)
}

/// A row that is no padding; any word for the argument where none is given.
pub fn row(random: &mut Random, ci: u64, nia: Option<u64>) -> Row {
    let mut row: Row = words(random);
    row[IS_PADDING] = 0;
    row[CI] = ci;
    row[NIA] = nia.unwrap_or(row[NIA]);
    row
}

/// Any instructions.
pub fn any_rows(random: &mut Random, rows: usize) -> Vec<Row> {
    let mut any = |below: usize| random.word() as usize % below;
    let instructions: Vec<(u64, u64)> = (0..rows).map(|_| (OPCODES[any(OPCODES.len())], any(5) as u64 + 1)).collect();
    instructions.into_iter().map(|(ci, nia)| row(random, ci, Some(nia))).collect()
}

/// The row with ST5 of this parity.
pub fn of_parity(mut row: Row, parity: u64) -> Row {
    row[ST0 + 5] = row[ST0 + 5] / 2 * 2 + parity;
    row
}

/// The rows in traces, each of which begins with the last row of the one before: every window is in one of them.
pub fn traces(rows: &[Row]) -> Vec<Vec<Row>> {
    (0..rows.len() - 1).step_by(MAX_TRACE_ROWS - 1).map(|at| rows[at..rows.len().min(at + MAX_TRACE_ROWS)].to_vec()).collect()
}
