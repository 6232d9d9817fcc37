//! The original's cells at its own constraints: unmet where docs/DIFFERENCES.md says so, and nowhere else.

use compare::plain::extension::column::*;
use compare::plain::extension::opcode::*;
use compare::random::Random;
use compare::tally::Tally;
use oracle::constraints::{initial_met, transition_met};
use oracle::rows::aux_column::*;
use oracle::rows::{IB0, NUMBER_OF_WORDS, OPCODES, STACK_ELEMENT, row};

use crate::words;

const HV5: usize = HV0 + 5;
const ST5: usize = ST0 + 5;

/// What the initial constraints have as 0, beside ST0 to ST10.
const ZEROS: [usize; 5] = [CLK, IP, JSP, JSO, JSD];

/// The arguments that decode, or any word where all do or none is taken.
fn arguments(random: &mut Random, ci: u64) -> Vec<u64> {
    if NUMBER_OF_WORDS.contains(&ci) {
        (1..=5).collect()
    } else if STACK_ELEMENT.contains(&ci) {
        (0..=15).collect()
    } else {
        words(random, 1)
    }
}

/// A row as the constraints on the main columns have it: bits of CI in IB0 to IB6, of the argument in HV0 to HV3, ST5's parity in HV5.
fn decomposed(random: &mut Random, ci: u64, nia: u64, is_padding: u64) -> Vec<u64> {
    let mut row = row(random, ci, nia, is_padding);
    for bit in 0..7 {
        row[IB0 + bit] = ci >> bit & 1;
    }
    if NUMBER_OF_WORDS.contains(&ci) || STACK_ELEMENT.contains(&ci) {
        for bit in 0..4 {
            row[HV0 + bit] = nia >> bit & 1;
        }
    }
    if ci == MERKLE_STEP || ci == MERKLE_STEP_MEM {
        row[ST5] %= 1 << 32;
        row[HV5] = row[ST5] % 2;
    }
    row
}

/// Whether the window's cell is another than its constraint's.
fn differs(column: usize, [previous, current]: [&[u64]; 2]) -> bool {
    let absorbed_in_padding = |opcode| previous[CI] == opcode && current[IS_PADDING] == 1;
    match column {
        INPUT => absorbed_in_padding(READ_IO),
        OUTPUT => absorbed_in_padding(WRITE_IO),
        _ => false,
    }
}

fn differs_in_row_0(column: usize, row: &[u64]) -> bool {
    let any = |columns: &[usize]| columns.iter().any(|&column| row[column] != 0);
    match column {
        INSTRUCTION_LOOKUP => any(&[IP]) || row[IS_PADDING] == 1,
        JUMP_STACK => any(&[CLK, JSP, JSO, JSD]),
        HASH_INPUT => match row[CI] {
            HASH => row[ST0..ST0 + 10].iter().any(|&word| word != 0),
            ci => ci == MERKLE_STEP || ci == MERKLE_STEP_MEM,
        },
        CLOCK_LOOKUP => any(&[CLK]) && any(&[MULTIPLICITY]),
        _ => false,
    }
}

/// Extends both rows, and looks at the cells of row 0 or 1.
fn check(tally: &mut Tally, random: &mut Random, rows: [&[u64]; 2], at: usize) {
    let (main, challenges) = (rows.concat(), words(random, 189));
    let aux = oracle::extend(&main, &challenges).expect("no denominator is zero");
    let met = if at == 0 { initial_met(&main, &aux, &challenges) } else { transition_met(&main, &aux, &challenges) };
    let expected: [bool; 11] = std::array::from_fn(|column| !if at == 0 { differs_in_row_0(column, rows[0]) } else { differs(column, rows) });
    tally.check(["initial", "transition"][at], &main, &[], (0, &met.map(u64::from)), 0, &expected.map(u64::from));
}

/// Before the rows that enter into the hash input and another one; and before padding, normal and as padding itself.
fn windows(tally: &mut Tally, random: &mut Random, ci: u64, nia: u64) {
    for next in [HASH, MERKLE_STEP, MERKLE_STEP_MEM, ADD] {
        let rows = [decomposed(random, ci, nia, 0), decomposed(random, next, nia, 0)];
        check(tally, random, [&rows[0], &rows[1]], 1);
    }
    for is_padding in [0, 1] {
        let last = decomposed(random, ci, nia, is_padding);
        let mut padding = last.clone();
        (padding[CLK], padding[IS_PADDING], padding[MULTIPLICITY]) = (random.base(), 1, 0);
        check(tally, random, [&last, &padding], 1);
    }
}

/// With any words, and with zeros where a run begins with zeros.
fn first_rows(tally: &mut Tally, random: &mut Random, ci: u64, nia: u64) {
    for is_padding in [0, 1] {
        let mut row = decomposed(random, ci, nia, is_padding);
        check(tally, random, [&row, &row], 0);
        for column in ZEROS.into_iter().chain(ST0..=ST0 + 10) {
            row[column] = 0;
        }
        row[HV5] = 0;
        check(tally, random, [&row, &row], 0);
    }
}

pub fn compare(random: &mut Random) -> bool {
    let mut tally = Tally::new("constraints");
    for ci in OPCODES {
        for nia in arguments(random, ci) {
            windows(&mut tally, random, ci, nia);
            first_rows(&mut tally, random, ci, nia);
        }
    }
    tally.report()
}
