//! Check of columns: the original's are accepted, with any word changed they are not, and where it panics all are refused.

use compare::checks::Verdict::{No, Refused, Yes};
use compare::checks::{change, check, count_other, place, tally};
use compare::plain::extension::{AUX_WIDTH, COLUMNS};
use compare::random::Random;
use compare::tally::Tally;
use oracle::MAIN_WIDTH as WIDTH;
use oracle::rows::aux_column::{CLOCK_LOOKUP, INSTRUCTION_LOOKUP, U32_LOOKUP};
use oracle::rows::{REALISTIC, WORST, any_table, challenges, mixed};

use crate::extension::aimed;
use crate::words;

/// Columns where a denominator is zero.
const KINDS: [&str; 3] = ["6 with zeros", "6 with any words", "6 with columns under other indeterminates"];

/// The original's columns as they are, and with each word of row 0, one between and the last changed, or, of a tall table, one of each
/// cell.
fn accepted(tally: &mut Tally, random: &mut Random, main: &[u64], challenges: &[u64], columns: &[u64]) {
    let rows = main.len() / WIDTH;
    check(tally, main, challenges, columns, Yes);
    tally.rows += rows as u64;
    for row in [0, rows / 2, rows - 1] {
        let words = row * AUX_WIDTH..(row + 1) * AUX_WIDTH;
        for word in words.filter(|word| rows <= 256 || word % 3 == row % 3) {
            let mut offered = columns.to_vec();
            change(random, &mut offered, word);
            check(tally, main, challenges, &offered, No(place(word)));
        }
    }
}

/// Whatever the columns hold, those of the same table under other indeterminates of the lookups too.
fn refused(tally: &mut Tally, random: &mut Random, main: &[u64], challenges: &[u64]) {
    let length = main.len() / WIDTH * AUX_WIDTH;
    let mut others = challenges.to_vec();
    for column in [INSTRUCTION_LOOKUP, U32_LOOKUP, CLOCK_LOOKUP] {
        others[3 * COLUMNS[column].0..][..3].copy_from_slice(&words(random, 3));
    }
    let columns = [Ok(vec![0; length]), Ok(words(random, length)), oracle::extend(main, &others)];
    for (kind, offered) in columns.into_iter().enumerate().filter_map(|(kind, columns)| Some((kind, columns.ok()?))) {
        check(tally, main, challenges, &offered, Refused(6));
        count_other(tally, kind);
    }
}

fn any(tally: &mut Tally, random: &mut Random, main: &[u64], challenges: &[u64]) {
    match oracle::extend(main, challenges) {
        Ok(columns) => accepted(tally, random, main, challenges, &columns),
        Err(_) => refused(tally, random, main, challenges),
    }
}

/// `count` tables of 1 to 64 rows, each beside five with a denominator or a factor that is zero; tall ones.
pub fn compare(random: &mut Random, count: u64, rows_compared: &mut u64) -> bool {
    let mut tally = tally(&KINDS);
    for i in 0..count {
        let (main, challenges) = (any_table(random, i as usize % 64 + 1), challenges(random));
        any(&mut tally, random, &main, &challenges);
        for _ in 0..5 {
            if let Some((main, challenges)) = aimed(random) {
                any(&mut tally, random, &main, &challenges);
            }
        }
    }
    for (mix, rows) in [(REALISTIC, 4096), (WORST, 4096), (REALISTIC, 65_536), (WORST, 65_536)] {
        let (main, challenges) = (mixed(random, mix, rows, rows / 4, 3), words(random, 189));
        any(&mut tally, random, &main, &challenges);
    }
    *rows_compared += tally.rows;
    tally.reached(&[0, 6]);
    tally.report()
}
