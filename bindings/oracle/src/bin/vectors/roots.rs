//! Indeterminates at which a denominator or a factor is zero, or would be if the row had an entry.

use compare::plain::extension::column::{IS_PADDING, MULTIPLICITY};
use compare::plain::extension::opcode::*;
use compare::plain::extension::{COLUMNS, WIDTH};
use compare::plain::{self, Element};
use compare::random::Random;
use oracle::rows::aux_column::*;
use oracle::rows::{HALT, symbols};

use crate::runs::{Case, Row, row};

/// A column's indeterminate at the element of an entry, whose denominator or factor is then zero;
/// or at the element that the row would enter if it were no padding and had a multiplicity.
pub struct Root {
    name: &'static str,
    /// CI and IsPadding of the trace's rows.
    trace: &'static [(u64, u64)],
    differences: &'static [u64],
    column: usize,
    /// The row, and which of its entries.
    row: usize,
    entry: usize,
    number: u8,
}

const fn root(
    name: &'static str,
    trace: &'static [(u64, u64)],
    differences: &'static [u64],
    column: usize,
    (row, entry): (usize, usize),
    number: u8,
) -> Root {
    Root { name, trace, differences, column, row, entry, number }
}

pub const ROOTS: [Root; 24] = [
    root("instruction, row 0", &[(HALT, 0), (HALT, 0)], &[], INSTRUCTION_LOOKUP, (0, 0), 6),
    root("instruction, IsPadding 2", &[(HALT, 0), (HALT, 2)], &[], INSTRUCTION_LOOKUP, (1, 0), 6),
    root("instruction, padding", &[(HALT, 1), (HALT, 0)], &[], INSTRUCTION_LOOKUP, (0, 0), 0),
    root("Split", &[(SPLIT, 0), (HALT, 0)], &[], U32_LOOKUP, (1, 0), 6),
    root("Lt", &[(LT, 0), (HALT, 0)], &[], U32_LOOKUP, (1, 0), 6),
    root("And", &[(AND, 0), (HALT, 0)], &[], U32_LOOKUP, (1, 0), 6),
    root("Pow", &[(POW, 0), (HALT, 0)], &[], U32_LOOKUP, (1, 0), 6),
    root("Xor", &[(XOR, 0), (HALT, 0)], &[], U32_LOOKUP, (1, 0), 6),
    root("Log2Floor", &[(LOG_2_FLOOR, 0), (HALT, 0)], &[], U32_LOOKUP, (1, 0), 6),
    root("PopCount", &[(POP_COUNT, 0), (HALT, 0)], &[], U32_LOOKUP, (1, 0), 6),
    root("DivMod, Lt", &[(DIV_MOD, 0), (HALT, 0)], &[], U32_LOOKUP, (1, 0), 6),
    root("DivMod, Split", &[(DIV_MOD, 0), (HALT, 0)], &[], U32_LOOKUP, (1, 1), 6),
    root("DivMod, Split, before padding", &[(DIV_MOD, 0)], &[], U32_LOOKUP, (1, 1), 6),
    root("MerkleStep", &[(MERKLE_STEP, 0), (HALT, 0)], &[], U32_LOOKUP, (1, 0), 6),
    root("MerkleStepMem", &[(MERKLE_STEP_MEM, 0), (HALT, 0)], &[], U32_LOOKUP, (1, 0), 6),
    root("clock", &[(HALT, 0), (HALT, 0)], &[0], CLOCK_LOOKUP, (0, 0), 6),
    root("clock, multiplicity 0", &[(HALT, 0), (HALT, 0)], &[1], CLOCK_LOOKUP, (0, 0), 0),
    root("clock, padding in row 1", &[(HALT, 0)], &[], CLOCK_LOOKUP, (1, 0), 6),
    root("clock, padding after row 1", &[(HALT, 0), (HALT, 0), (HALT, 0)], &[], CLOCK_LOOKUP, (3, 0), 0),
    root("clock, a difference too large first", &[(HALT, 0), (HALT, 0)], &[0, 2], CLOCK_LOOKUP, (0, 0), 4),
    root("op stack, product 0", &[(SPONGE_ABSORB, 0), (HALT, 0)], &[], OP_STACK, (1, 9), 0),
    root("RAM, product 0", &[(XX_DOT_STEP, 0), (HALT, 0)], &[], RAM, (1, 5), 0),
    root("jump stack, product 0", &[(HALT, 0), (HALT, 0)], &[], JUMP_STACK, (0, 0), 0),
    root("jump stack, product 0 in padding", &[(HALT, 0), (HALT, 0), (HALT, 0)], &[], JUMP_STACK, (3, 0), 0),
];

impl Root {
    pub fn case(&self, random: &mut Random) -> Case {
        let mut trace: Vec<Row> = self.trace.iter().map(|&(ci, _)| row(random, ci, None)).collect();
        for (row, &(_, is_padding)) in trace.iter_mut().zip(self.trace) {
            row[IS_PADDING] = is_padding;
        }
        let differences = [self.differences.to_vec(), vec![], vec![]];
        let mut case = Case { differences, number: self.number, ..Case::new(random, self.name, trace) };
        let element = self.element(&case);
        case.sampled[3 * COLUMNS[self.column].0..][..3].copy_from_slice(&element);
        case
    }

    /// What the column's indeterminate is to be.
    fn element(&self, case: &Case) -> Element {
        let mut table = vec![0; case.height() * WIDTH];
        table[..case.trace.len() * WIDTH].copy_from_slice(case.trace.as_flattened());
        plain::pad(&mut table, case.trace.len());
        let rows: Vec<&[u64]> = table.chunks_exact(WIDTH).collect();
        let mut row = rows[self.row].to_vec();
        row[IS_PADDING] = 0;
        row[MULTIPLICITY] = 1;
        let previous = self.row.checked_sub(1).map(|previous| rows[previous]);
        symbols(self.column, previous, &row, &case.sampled)[self.entry]
    }
}
