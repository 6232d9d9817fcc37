//! Decoding.

use compare::random::Random;
use compare::tally::{DECODED, Tally, marks};
use oracle::rows::{ARGUMENTS, OTHERS};
use tealbobbin::abi;

use crate::words;

/// The words 0 to 300, 0 to 255 with 2^32 added and others near opcodes, with arguments of every class.
pub fn compare(random: &mut Random) -> bool {
    let mut tally = Tally::of_kinds("decode", &DECODED);
    for ci in (0..=300).chain((0..=255).map(|word| (1 << 32) + word)).chain(OTHERS) {
        for nia in (0..=20).chain(ARGUMENTS) {
            let mut row = words(random, 39);
            (row[3], row[4]) = (ci, nia);
            let mut out = marks(2);
            let got = abi::decode(&row, &mut out);
            let expected = oracle::decode(ci, nia);
            tally.count(expected[0] as usize);
            tally.check("decode", &[ci, nia], &marks(2), (got, &out), 0, &expected);
        }
    }
    tally.reached(&[0]);
    tally.report()
}
