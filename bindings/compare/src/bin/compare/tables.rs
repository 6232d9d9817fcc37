//! Fill and pad.

use compare::plain;
use compare::plain::extension::column::MULTIPLICITY;
use compare::random::Random;
use compare::tally::Tally;
use tealbobbin::abi;
use tealbobbin::field::P;
use tealbobbin::processor::{MAIN_WIDTH, MAX_ROWS};

fn words(random: &mut Random, n: usize) -> Vec<u64> {
    (0..n).map(|_| random.base()).collect()
}

fn any_words(random: &mut Random, n: usize) -> Vec<u64> {
    (0..n).map(|_| random.any()).collect()
}

fn fill(tally: &mut Tally, trace: &[u64], lists: &[Vec<u64>; 3], table: &[u64]) {
    let (rows, table_rows) = (trace.len() / MAIN_WIDTH, table.len() / MAIN_WIDTH);
    let differences = || lists.iter().flatten();
    let number = if trace.len() % MAIN_WIDTH != 0 || table.len() % MAIN_WIDTH != 0 || lists.iter().any(|list| list.len() > MAX_ROWS) {
        1
    } else if table_rows > MAX_ROWS || table_rows < rows {
        3
    } else if trace.iter().chain(differences()).any(|&w| w >= P) {
        2
    } else if differences().any(|&d| d >= rows as u64) {
        4
    } else {
        0
    };
    let mut expected = table.to_vec();
    if number == 0 {
        plain::fill(trace, lists, &mut expected);
    }
    let mut out = table.to_vec();
    let got = abi::fill(trace, &lists[0], &lists[1], &lists[2], &mut out);
    let shape = [trace.len(), lists[0].len(), lists[1].len(), lists[2].len(), table.len()].map(|n| n as u64);
    tally.check("fill", &shape, table, (got, &out), number, &expected);
}

fn pad(tally: &mut Tally, table: &[u64], table_len: usize) {
    let rows = table.len() / MAIN_WIDTH;
    let number = if table.len() % MAIN_WIDTH != 0 {
        1
    } else if !(2..=MAX_ROWS).contains(&rows) || !(1..=rows).contains(&table_len) {
        3
    } else if table[..table_len * MAIN_WIDTH].iter().any(|&w| w >= P) {
        2
    } else {
        0
    };
    let mut expected = table.to_vec();
    if number == 0 {
        plain::pad(&mut expected, table_len);
    }
    let mut out = table.to_vec();
    let got = abi::pad(&mut out, table_len);
    tally.check("pad", &[table.len() as u64, table_len as u64], table, (got, &out), number, &expected);
}

/// Tables of up to 12 rows at every height of the trace, damaged lengths, bad words and differences in every place, and tall tables.
pub fn compare(random: &mut Random, count: u64) -> bool {
    let mut tally = Tally::new("fill and pad");
    let lists = |random: &mut Random, below: u64| -> [Vec<u64>; 3] {
        std::array::from_fn(|_| (0..random.word() % 8).map(|_| random.word() % below).collect())
    };
    let none: [Vec<u64>; 3] = Default::default();
    for rows in 0..12 {
        let table = any_words(random, rows * MAIN_WIDTH);
        for trace_rows in 0..rows + 2 {
            let trace = words(random, trace_rows * MAIN_WIDTH);
            fill(&mut tally, &trace, &none, &table);
            let differences = lists(random, trace_rows as u64 + 1);
            fill(&mut tally, &trace, &differences, &table);
            for _ in 0..8 {
                let differences = lists(random, trace_rows.max(1) as u64);
                fill(&mut tally, &trace, &differences, &table);
            }
            pad(&mut tally, &words(random, rows * MAIN_WIDTH), trace_rows);
            let mut below = words(random, rows * MAIN_WIDTH);
            for w in below.iter_mut().skip(trace_rows * MAIN_WIDTH) {
                *w = random.any();
            }
            pad(&mut tally, &below, trace_rows);
        }
        pad(&mut tally, &words(random, rows * MAIN_WIDTH), usize::MAX);
    }
    for length in 0..130 {
        let odd = any_words(random, length);
        fill(&mut tally, &odd, &none, &vec![0; 4 * MAIN_WIDTH]);
        fill(&mut tally, &vec![0; 2 * MAIN_WIDTH], &none, &odd);
        pad(&mut tally, &odd, 1);
        pad(&mut tally, &odd, length);
    }
    for place in 0..3 * MAIN_WIDTH {
        for bad in [P, u64::MAX] {
            let mut trace = words(random, 3 * MAIN_WIDTH);
            trace[place] = bad;
            fill(&mut tally, &trace, &none, &vec![7; 4 * MAIN_WIDTH]);
            let mut table = words(random, 4 * MAIN_WIDTH);
            table[place] = bad;
            for table_len in 1..5 {
                pad(&mut tally, &table, table_len);
            }
        }
    }
    for difference in [30, 31, 32, 33, P - 1, P, u64::MAX] {
        for list in 0..3 {
            let mut differences = none.clone();
            differences[list] = vec![3, difference];
            fill(&mut tally, &words(random, 32 * MAIN_WIDTH), &differences, &any_words(random, 40 * MAIN_WIDTH));
        }
    }
    for _ in 0..count {
        let (rows, more) = (random.word() as usize % 60 + 1, random.word() as usize % 60);
        let differences = lists(random, rows as u64);
        fill(&mut tally, &words(random, rows * MAIN_WIDTH), &differences, &any_words(random, (rows + more) * MAIN_WIDTH));
        pad(&mut tally, &words(random, (rows + more) * MAIN_WIDTH), rows);
    }
    let tall = words(random, 20_000 * MAIN_WIDTH);
    let many: [Vec<u64>; 3] = std::array::from_fn(|_| (0..50_000).map(|_| random.word() % 20_000).collect());
    fill(&mut tally, &tall, &many, &vec![0; 32_768 * MAIN_WIDTH]);
    fill(&mut tally, &[], &[vec![0; MAX_ROWS + 1], vec![], vec![]], &[]);
    fill(&mut tally, &[], &none, &vec![0; (MAX_ROWS + 1) * MAIN_WIDTH]);
    pad(&mut tally, &vec![0; MAX_ROWS * MAIN_WIDTH], 3);
    pad(&mut tally, &vec![0; (MAX_ROWS + 1) * MAIN_WIDTH], 3);
    // row 1's multiplicity is folded modulo p
    let mut table = vec![0; 6 * MAIN_WIDTH];
    table[MAIN_WIDTH + MULTIPLICITY] = P - 1;
    pad(&mut tally, &table, 3);
    tally.report()
}
