//! Document 01's values, from the original.

use compare::plain::{inverse, sub};
use compare::tally::Tally;

const HALF: u64 = 9223372034707292161;

fn record(element: u64) -> Vec<u64> {
    [element, 0, 0].repeat(63)
}

/// The last row's cells of a table, under challenges that are all the same base element.
fn cells(main: &[u64], element: u64) -> Vec<u64> {
    let aux = oracle::extend(main, &record(element)).expect("no zero denominator");
    aux[aux.len() - 33..].to_vec()
}

/// Two rows of zeros but for CI and NIA above, and ST0 and ST1 where they are looked for.
fn window(ci: u64, nia: u64, previous: [u64; 2], current: [u64; 2]) -> Vec<u64> {
    let mut main = vec![0; 78];
    (main[3], main[4]) = (ci, nia);
    main[15..17].copy_from_slice(&previous);
    main[39 + 15..39 + 17].copy_from_slice(&current);
    main
}

pub fn compare() -> bool {
    let mut tally = Tally::new("document 01's values");
    let mut expect = |what: &str, got: &[u64], expected: &[u64]| tally.check(what, &[], &[], (0, got), 0, expected);

    let filled = oracle::fill(&[0; 39], &[], &[], &[], &[0; 78]).expect("one row");
    let padded = oracle::pad(&filled, 1).expect("two rows");
    let challenges = oracle::challenges(&[2, 0, 0].repeat(59), &[0; 5], &[], &[]).expect("59 elements");
    let aux = oracle::extend(&padded, &challenges).expect("no zero denominator");
    let terminals = [1, 1, HALF, 1, 1, 0, 1, 1, 1, 0, 1].map(|c| [c, 0, 0]).concat();
    expect("terminals", &aux[33..], &terminals);

    // at a height of its own the example's clock column, the last, counts the padding rows: what tests/terminals has at k 18
    let (sampled, digest) = ([2, 0, 0].repeat(59), [0; 5]);
    for k in [1, 2, 10, 18] {
        let cells = oracle::terminals([&[0; 39], &[], &[], &[], &sampled, &digest, &[], &[]], 1 << k).expect("no refusal");
        expect("terminals at a height", &cells, &[&terminals[..30], &[(1 << k) - 1, 0, 0]].concat());
    }

    expect("input", &cells(&window(73, 2, [0, 0], [5, 7]), 10)[..3], &[175, 0, 0]);
    expect("output", &cells(&window(19, 2, [5, 7], [0, 0]), 10)[3..6], &[157, 0, 0]);
    for nia in [0, 6] {
        expect("input", &cells(&window(73, nia, [0, 0], [5, 7]), 10)[..3], &[1, 0, 0]);
    }
    expect("5 words", &oracle::decode(73, 5), &[1, 73]);

    // looked up is And, 14, of 6 and 3 with the result 2
    let entry = 10 * (6 + 3 + 14 + 2);
    expect("xor", &cells(&window(22, 0, [6, 3], [5, 0]), 10)[27..30], &[inverse(sub(10, entry)), 0, 0]);
    tally.report()
}
