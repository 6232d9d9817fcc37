//! From a batch to the last row's cells: the walk against the original's fill, pad and extension of the whole table.

use compare::plain::batch::{self, FORMS, height};
use compare::plain::extension::column::{CI, CLK, IS_PADDING, MULTIPLICITY, NIA};
use compare::plain::extension::{AUX_WIDTH, COLUMNS};
use compare::random::Random;
use compare::tally::{HEIGHTS, Tally, marks};
use oracle::MAIN_WIDTH as WIDTH;
use oracle::rows::aux_column::{CLOCK_LOOKUP, U32_LOOKUP};
use oracle::rows::{ARGUMENTS, OPCODES, OTHERS, any_table, challenges, symbols};
use tealbobbin::abi;
use tealbobbin::batch::MAX_TRACE_ROWS;

use crate::words;

/// What is to be met beside the heights up to 2^18.
const KINDS: [&str; 4] = ["without 0B", "one trace row", "no padding row", "a last row undecodable"];

fn kinds() -> Vec<&'static str> {
    HEIGHTS.into_iter().map(|(_, name)| name).filter(|&name| name != "k 22").chain(KINDS).collect()
}

fn below(random: &mut Random, n: usize) -> usize {
    random.word() as usize % n
}

/// What a batch brings: trace, op stack, RAM, jump stack, sampled, digest, input and output. The trace ends in the instruction of
/// this place, or, past all instructions, in a word that is none.
fn contents(random: &mut Random, rows: usize, place: usize) -> [Vec<u64>; 8] {
    let mut trace = any_table(random, rows);
    let last = &mut trace[(rows - 1) * WIDTH..];
    let place = place % (OPCODES.len() + 2);
    last[CI] = OPCODES.get(place).copied().unwrap_or_else(|| OTHERS[below(random, OTHERS.len())]);
    last[NIA] = if random.word() % 4 == 0 { ARGUMENTS[below(random, ARGUMENTS.len())] } else { random.word() % 5 + 1 };
    let difference = if random.word() % 16 == 0 { rows + 1 } else { rows };
    let [op_stack, ram, jump_stack] =
        [(); 3].map(|()| (0..below(random, 5)).map(|_| random.word() % difference as u64).collect::<Vec<u64>>());
    let [input, output] = [(); 2].map(|()| {
        let n = below(random, 4);
        words(random, n)
    });
    [trace, op_stack, ram, jump_stack, challenges(random)[..177].to_vec(), words(random, 5), input, output]
}

/// The batch of these contents, in either form, and the original's cells at its height.
fn check(tally: &mut Tally, random: &mut Random, contents: &[Vec<u64>; 8], k: u64) {
    let (slices, rows) = (contents.each_ref().map(Vec::as_slice), contents[0].len() / WIDTH);
    let mut bytes = vec![0; batch::length(&slices, k)];
    assert_eq!(batch::write(slices, FORMS[below(random, 2)], k, &mut bytes), 0);
    let height = height(k, rows);
    let (number, cells) = oracle::terminals(slices, height).map_or_else(|number| (number, vec![]), |cells| (0, cells.to_vec()));
    let mut ours = marks(AUX_WIDTH);
    let got = abi::terminals(&bytes, &mut ours);
    tally.check("terminals", &[rows as u64, k], &marks(AUX_WIDTH), (got, &ours), number, &cells);
    if number == 0 {
        tally.rows += height as u64;
    }
    let first = HEIGHTS.len() - 1;
    tally.count(HEIGHTS.iter().position(|&(at, _)| at == k).unwrap_or(first));
    let last = &contents[0][(rows - 1) * WIDTH..];
    let undecodable = oracle::decode(last[CI], last[NIA])[0] != 1;
    for (kind, met) in [rows == 1, rows == height, rows < height && undecodable].into_iter().enumerate() {
        if met {
            tally.count(first + 1 + kind);
        }
    }
}

/// One run at this height; then with a denominator that vanishes where a padding row brings an entry, or row 1 does for all of them.
fn any(tally: &mut Tally, random: &mut Random, k: u64, place: usize) {
    let most = if k == 0 { MAX_TRACE_ROWS } else { MAX_TRACE_ROWS.min(1 << k) };
    let rows = [1, most, 1 + below(random, most), 1 + below(random, most)][below(random, 4)];
    let contents = contents(random, rows, place);
    check(tally, random, &contents, k);

    let mut padding = contents[0][(rows - 1) * WIDTH..].to_vec();
    (padding[CLK], padding[IS_PADDING], padding[MULTIPLICITY]) = (rows as u64, 1, 0);
    let record = [&contents[4][..], &[0; 12]].concat();
    let looked_up = symbols(U32_LOOKUP, Some(&padding), &padding, &record);
    let clock = if rows > 1 { contents[0][WIDTH + CLK] } else { 1 };
    let aims = looked_up.into_iter().map(|element| (U32_LOOKUP, element)).chain([(CLOCK_LOOKUP, [clock, 0, 0])]);
    if k <= 8 {
        for (column, element) in aims {
            let mut contents = contents.clone();
            contents[4][3 * COLUMNS[column].0..][..3].copy_from_slice(&element);
            check(tally, random, &contents, k);
        }
    }
}

/// `count` times every height up to 2^14, and none; some at 2^16 and 2^18.
pub fn compare(random: &mut Random, count: u64, rows_compared: &mut u64) -> bool {
    let mut tally = Tally::of_kinds("terminals", &kinds());
    let mut place = 0;
    for k in (0..count).flat_map(|_| 0..=14).chain([16, 16, 16, 16, 18, 18]) {
        for _ in 0..if k < 8 { 4 } else { 1 } {
            any(&mut tally, random, k, place);
            place += 1;
        }
    }
    tally.reached(&[0, 4, 6]);
    *rows_compared += tally.rows;
    tally.report()
}
