//! Main tables and challenges to compare and race on.

use compare::plain::extension::column::{CI, CLK, IS_PADDING, MULTIPLICITY, NIA};
use compare::plain::extension::opcode::*;
use compare::plain::extension::{COLUMNS, Challenges, Kind};
use compare::plain::{Element, pad};
use compare::random::Random;
use compare::rows::mend;
use tealbobbin::field::P;

pub const IB0: usize = 5;

/// The auxiliary columns in their order.
pub mod aux_column {
    pub const INPUT: usize = 0;
    pub const OUTPUT: usize = 1;
    pub const INSTRUCTION_LOOKUP: usize = 2;
    pub const OP_STACK: usize = 3;
    pub const RAM: usize = 4;
    pub const JUMP_STACK: usize = 5;
    pub const HASH_INPUT: usize = 6;
    pub const HASH_DIGEST: usize = 7;
    pub const SPONGE: usize = 8;
    pub const U32_LOOKUP: usize = 9;
    pub const CLOCK_LOOKUP: usize = 10;
}

/// All opcodes.
pub const OPCODES: [u64; 46] = ALL;

pub const HALT: u64 = 0;

/// Opcodes with any word for an argument, Push, Call and AddI; with 0 to 15, Pick, Place, Dup and Swap; with 1 to 5.
pub const ANY_WORD: [u64; 3] = [PUSH, 49, 65];
pub const STACK_ELEMENT: [u64; 4] = [17, 25, DUP, 41];
pub const NUMBER_OF_WORDS: [u64; 6] = [POP, DIVINE, READ_MEM, WRITE_MEM, READ_IO, WRITE_IO];

/// Words that are no opcode, some of them one in their low bits.
pub const OTHERS: [u64; 12] = [5, 7, 13, 27, 35, 89, 127, 256 + 73, (1 << 32) + 18, (1 << 32) + 73, P - 1, P - 73];

/// Arguments of each class: below, in and above 1 to 5 and 0 to 15, and large ones with those in their low bits.
pub const ARGUMENTS: [u64; 14] = [0, 1, 2, 3, 4, 5, 6, 15, 16, 17, 1 << 32, (1 << 32) + 2, P - 1, P - 5];

/// Any words under an instruction, an argument and a padding mark.
pub fn row(random: &mut Random, ci: u64, nia: u64, is_padding: u64) -> Vec<u64> {
    let small = random.word() % 4 == 0;
    let mut row: Vec<u64> = (0..39).map(|_| if small { random.word() % 4 } else { random.base() }).collect();
    row[IS_PADDING] = is_padding;
    row[CI] = ci;
    row[NIA] = nia;
    if random.word() % 2 == 0 {
        row[MULTIPLICITY] = 0;
    }
    row
}

fn pick(random: &mut Random, from: &[u64]) -> u64 {
    from[random.word() as usize % from.len()]
}

/// A row that mostly decodes and mostly is no padding.
pub fn any_row(random: &mut Random) -> Vec<u64> {
    let ci = match random.word() % 16 {
        0 => random.base(),
        1 => pick(random, &OTHERS),
        _ => pick(random, &OPCODES),
    };
    let nia = if random.word() % 4 == 0 { pick(random, &ARGUMENTS) } else { random.word() % 5 + 1 };
    let is_padding = pick(random, &[0, 0, 0, 0, 0, 1, 2, P - 1]);
    row(random, ci, nia, is_padding)
}

/// Of two tables, one decodes throughout.
pub fn any_table(random: &mut Random, rows: usize) -> Vec<u64> {
    let mut table: Vec<u64> = (0..rows).flat_map(|_| any_row(random)).collect();
    if random.word() % 2 == 0 {
        mend(random, &mut table);
    }
    table
}

/// 63 elements: any, or base elements, or small ones.
pub fn challenges(random: &mut Random) -> Vec<u64> {
    let kind = random.word() % 8;
    let word = |random: &mut Random, i: usize| match kind {
        0 => random.word() % 3,
        1 if i % 3 > 0 => 0,
        _ => random.base(),
    };
    (0..189).map(|i| word(random, i)).collect()
}

/// The elements that a row enters into a column.
pub fn symbols(column: usize, previous: Option<&[u64]>, current: &[u64], challenges: &[u64]) -> Vec<Element> {
    let challenges = Challenges(challenges);
    match COLUMNS[column].1 {
        Kind::Evaluation(entries) | Kind::Product(entries) => entries(previous, current, challenges).unwrap_or_default(),
        Kind::Lookup(entries) => entries(previous, current, challenges).unwrap_or_default().iter().map(|entry| entry.1).collect(),
    }
}

/// An instruction with its argument, and how often it comes.
pub type Mix = &'static [(u64, u64, u64)];

/// What programs mostly do: stack, arithmetic and jumps, some memory, a little hashing and 32-bit arithmetic.
#[rustfmt::skip]
pub const REALISTIC: Mix = &[
    (1, 7, 120), (3, 1, 60), (33, 3, 180), (41, 2, 100), (17, 4, 50), (25, 4, 40), (9, 1, 5),
    (42, 0, 70), (65, 1, 40), (50, 0, 50), (58, 0, 30), (66, 0, 10), (74, 0, 10), (82, 0, 5),
    (2, 0, 40), (49, 90, 30), (16, 0, 30), (24, 0, 10), (10, 0, 5),
    (57, 1, 25), (57, 5, 15), (11, 1, 20), (11, 5, 10), (80, 0, 15), (88, 0, 5), (73, 1, 3), (19, 5, 2),
    (18, 0, 10), (36, 0, 5), (44, 0, 3), (34, 0, 5), (48, 0, 5), (56, 0, 2),
    (4, 0, 15), (6, 0, 15), (14, 0, 10), (22, 0, 5), (20, 0, 5), (28, 0, 3),
];

/// Rows that give the most entries.
pub const WORST: Mix =
    &[(34, 0, 2), (48, 0, 2), (56, 0, 2), (44, 0, 2), (57, 5, 1), (11, 5, 1), (20, 0, 1), (22, 0, 1), (80, 0, 1)];

fn instruction(random: &mut Random, mix: Mix) -> (u64, u64) {
    let mut at = random.word() % mix.iter().map(|&(_, _, weight)| weight).sum::<u64>();
    for &(ci, nia, weight) in mix {
        if at < weight {
            return (ci, nia);
        }
        at -= weight;
    }
    unreachable!("the number is below the sum of the weights")
}

/// A table of such rows with CLK counting up, one in `every` rows with a multiplicity; a last halt, and padding behind it.
pub fn mixed(random: &mut Random, mix: Mix, rows: usize, padding: usize, every: u64) -> Vec<u64> {
    let mut table: Vec<u64> = (0..rows * 39).map(|_| random.word() % P).collect();
    for (index, row) in table.chunks_exact_mut(39).enumerate() {
        let (ci, nia) = if index + padding + 1 == rows { (0, 0) } else { instruction(random, mix) };
        row[CLK] = index as u64;
        row[IS_PADDING] = 0;
        row[CI] = ci;
        row[NIA] = nia;
        for bit in 0..7 {
            row[IB0 + bit] = ci >> bit & 1;
        }
        row[MULTIPLICITY] = if random.word() % every == 0 { random.word() % 9 + 1 } else { 0 };
    }
    pad(&mut table, rows - padding);
    table
}
