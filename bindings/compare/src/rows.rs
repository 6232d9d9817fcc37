//! Rows that decode, and rows that do not.

use tealbobbin::field::P;

use crate::plain::decodes;
use crate::plain::extension::column::{CI, NIA};
use crate::plain::extension::{opcode, WIDTH};
use crate::random::Random;

fn pick(random: &mut Random, from: &[u64]) -> u64 {
    from[random.word() as usize % from.len()]
}

/// Every row that does not decode gets any instruction, and an argument that all take.
pub fn mend(random: &mut Random, main: &mut [u64]) {
    for row in main.chunks_exact_mut(WIDTH).filter(|row| !decodes(row[CI], row[NIA])) {
        (row[CI], row[NIA]) = (pick(random, &opcode::ALL), random.word() % 5 + 1);
    }
}

/// The row gets words that do not decode, unless it has such: no opcode, some with one in its low bits, or an argument outside its class.
pub fn spoil(random: &mut Random, row: &mut [u64]) {
    while decodes(row[CI], row[NIA]) {
        row[CI] = pick(random, &opcode::ALL) + pick(random, &[0, 0, 0, 0, 0, 0, 1, 1 << 8, 1 << 32]);
        row[NIA] = pick(random, &[0, 6, 16, 1 << 32, (1 << 32) + 1, P - 1]);
    }
}
