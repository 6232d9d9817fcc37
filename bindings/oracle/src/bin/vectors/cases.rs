//! The list of cases.

use compare::plain::extension::column::{IS_PADDING, OP_STACK_POINTER, ST0};
use compare::plain::extension::opcode::*;
use compare::random::Random;
use oracle::rows::{ANY_WORD, HALT, NUMBER_OF_WORDS, OPCODES, STACK_ELEMENT};
use tealbobbin::batch::{MAX_DIFFERENCES, MAX_IO_WORDS, MAX_TRACE_ROWS};
use tealbobbin::field::P;

use crate::roots::ROOTS;
use crate::runs::{Case, Row, any_rows, of_parity, row, traces, words};

/// A walk over all instructions, row by row.
struct Walk {
    name: &'static str,
    /// Of the even and of the odd rows.
    is_padding: [u64; 2],
    /// Of the instructions that take one.
    argument: u64,
    /// The word in each of `POINTERS`, if it is not any.
    pointer: Option<u64>,
}

/// So every instruction stands before a normal and before a padding row, as a normal and as a padding row itself.
const WALKS: [Walk; 7] = [
    Walk { name: "normal rows", is_padding: [0, 0], argument: 4, pointer: None },
    Walk { name: "padding after even rows", is_padding: [0, 1], argument: 3, pointer: None },
    Walk { name: "padding after odd rows", is_padding: [1, 0], argument: 2, pointer: None },
    Walk { name: "padding alone", is_padding: [1, 1], argument: 1, pointer: None },
    Walk { name: "IsPadding neither 0 nor 1", is_padding: [2, P - 1], argument: 5, pointer: None },
    Walk { name: "IsPadding with 1 in its low bits", is_padding: [(1 << 8) + 1, (1 << 32) + 1], argument: 5, pointer: None },
    Walk { name: "pointers that wrap", is_padding: [P - 1, 2], argument: 5, pointer: Some(P - 1) },
];

/// The op stack's pointer and what RAM pointers are read from: ST0, ST1 and ST7.
const POINTERS: [usize; 4] = [OP_STACK_POINTER, ST0, ST0 + 1, ST0 + 7];

/// The opcodes with an argument; arguments at the ends of their class, beside them, and with one in their low bits.
const ARGUMENTS: [(&[u64], &[u64]); 3] = [
    (&ANY_WORD, &[0, P - 1]),
    (&STACK_ELEMENT, &[0, 16, 15, 1 << 8, 1 << 32]),
    (&NUMBER_OF_WORDS, &[1, 0, 5, 6, (1 << 8) + 1, (1 << 32) + 1]),
];

/// Words that are no opcode.
const NO_OPCODES: [u64; 9] = [5, 7, 13, 27, 35, 89, 127, P - READ_IO, P - 1];

/// Opcodes that enter into the columns: in the low 8 or 32 bits of another word they are none.
const LOW_BITS: [u64; 7] = [READ_IO, WRITE_IO, READ_MEM, HASH, SPONGE_ABSORB, SPLIT, DIV_MOD];

/// Trace rows, and the last one's instruction, which padding repeats.
const HEIGHTS: [(usize, u64); 8] =
    [(2, READ_IO), (3, WRITE_IO), (5, READ_IO), (6, MERKLE_STEP_MEM), (7, SPONGE_ABSORB_MEM), (9, DIV_MOD), (17, WRITE_IO), (31, PUSH)];

/// Trace rows, the last one's instruction, and the k of 0B.
const SET_HEIGHTS: [(usize, u64, u32); 16] = [
    (1, HALT, 1),
    (1, MERKLE_STEP, 2),
    (1, READ_IO, 12),
    (2, HALT, 1),
    (2, SPLIT, 2),
    (3, XOR, 2),
    (3, DIV_MOD, 3),
    (4, HALT, 5),
    (5, SPONGE_SQUEEZE, 6),
    (8, HASH, 7),
    (16, WRITE_IO, 8),
    (30, SPONGE_ABSORB_MEM, 5),
    (31, POW, 5),
    (31, MERKLE_STEP_MEM, 9),
    (32, READ_MEM, 5),
    (32, LOG_2_FLOOR, 10),
];

/// Trace rows, the differences of op stack, RAM and jump stack, and the answer.
const LISTS: [(usize, [&[u64]; 3], u8); 14] = [
    (1, [&[0], &[], &[]], 0),
    (2, [&[], &[0], &[]], 0),
    (3, [&[], &[], &[2]], 0),
    (3, [&[1], &[1], &[1]], 0),
    (4, [&[3, 3], &[3, 0], &[2, 3]], 0),
    (5, [&[4, 1, 4], &[1, 0, 0, 0], &[1, 2, 4, 4]], 0),
    (5, [&[], &[], &[]], 0),
    (32, [&[31], &[31, 0], &[30, 31]], 0),
    (1, [&[1], &[], &[]], 4),
    (3, [&[], &[3], &[]], 4),
    (5, [&[], &[], &[7]], 4),
    (2, [&[0], &[2], &[1]], 4),
    (2, [&[], &[1 << 32], &[]], 4),
    (2, [&[P - 1], &[], &[]], 4),
];

/// All cases.
pub fn all(random: &mut Random) -> Vec<Case> {
    let mut cases = vec![];
    for walk in &WALKS {
        let rows = walk.rows(random);
        cases.extend(traces(&rows).into_iter().map(|trace| Case::counted(random, walk.name, trace)));
    }
    let rows = [arguments(random), no_opcodes(random)].concat();
    cases.extend(traces(&rows).into_iter().map(|trace| Case::new(random, "what decodes", trace)));
    // row 0 ends no window; pad repeats it in row 1
    let rows = instructions(random, 5);
    cases.extend(rows.into_iter().map(|row| Case::new(random, "a trace of one row", vec![row])));
    cases.extend(HEIGHTS.map(|(rows, last)| height(random, rows, last)));
    cases.extend(LISTS.map(|(rows, lists, number)| counts(random, rows, lists, number)));
    cases.extend(ROOTS.iter().map(|root| root.case(random)));
    cases.push(longest(random));
    cases.extend(SET_HEIGHTS.map(|(rows, last, k)| set_height(random, rows, last, k)));
    cases
}

impl Walk {
    /// All instructions, and a row that ends the last one's window.
    fn rows(&self, random: &mut Random) -> Vec<Row> {
        let mut rows = [instructions(random, self.argument), vec![row(random, HALT, None)]].concat();
        for (index, row) in rows.iter_mut().enumerate() {
            row[IS_PADDING] = self.is_padding[index % 2];
            for column in POINTERS {
                row[column] = self.pointer.unwrap_or(row[column]);
            }
        }
        rows
    }
}

/// Every instruction, with the argument where it takes one; Merkle steps with either parity of ST5.
fn instructions(random: &mut Random, argument: u64) -> Vec<Row> {
    let mut rows = vec![];
    for ci in OPCODES {
        let nia = takes_argument(ci).then_some(argument);
        match ci {
            MERKLE_STEP | MERKLE_STEP_MEM => rows.extend([0, 1].map(|parity| of_parity(row(random, ci, nia), parity))),
            _ => rows.push(row(random, ci, nia)),
        }
    }
    rows
}

fn takes_argument(ci: u64) -> bool {
    ARGUMENTS.iter().any(|(opcodes, _)| opcodes.contains(&ci))
}

/// Every opcode with an argument, with each argument of its list: rows that decode to nothing are between rows that do.
fn arguments(random: &mut Random) -> Vec<Row> {
    let mut rows = vec![];
    for (opcodes, arguments) in ARGUMENTS {
        for &ci in opcodes {
            rows.extend(arguments.iter().map(|&nia| row(random, ci, Some(nia))));
        }
    }
    rows
}

/// Rows that decode to nothing, and one that ends the last one's window.
fn no_opcodes(random: &mut Random) -> Vec<Row> {
    let low_bits = LOW_BITS.into_iter().flat_map(|opcode| [(1 << 8) + opcode, (1 << 32) + opcode]);
    NO_OPCODES.into_iter().chain(low_bits).chain([HALT]).map(|ci| row(random, ci, Some(1))).collect()
}

/// Any instructions before the last one.
fn height(random: &mut Random, rows: usize, last: u64) -> Case {
    let mut trace = any_rows(random, rows - 1);
    trace.push(row(random, last, Some(5)));
    Case::new(random, "heights", trace)
}

/// The same at 2^k rows, with every row counted.
fn set_height(random: &mut Random, rows: usize, last: u64, k: u32) -> Case {
    let trace = height(random, rows, last).trace;
    Case { log2_height: k, ..Case::counted(random, "heights that 0B sets", trace) }
}

fn counts(random: &mut Random, rows: usize, lists: [&[u64]; 3], number: u8) -> Case {
    let trace = any_rows(random, rows);
    Case { differences: lists.map(|list| list.to_vec()), number, ..Case::new(random, "differences", trace) }
}

/// As much as a batch holds; the last row's multiplicity takes more than a byte.
fn longest(random: &mut Random) -> Case {
    let trace = any_rows(random, MAX_TRACE_ROWS);
    let last = MAX_TRACE_ROWS as u64 - 1;
    let differences = [vec![last; MAX_DIFFERENCES], vec![last; MAX_DIFFERENCES], (0..=last).cycle().take(MAX_DIFFERENCES).collect()];
    let [input, output] = [words::<MAX_IO_WORDS>(random), words::<MAX_IO_WORDS>(random)].map(Vec::from);
    Case { differences, input, output, ..Case::new(random, "the longest batch", trace) }
}
