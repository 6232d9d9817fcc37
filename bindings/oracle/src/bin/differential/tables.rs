//! Fill and pad, with the original's panics as refusals.

use compare::random::Random;
use compare::tally::Tally;
use oracle::MAIN_WIDTH as WIDTH;
use tealbobbin::abi;

use crate::words;

/// What a call is to answer and leave: the original's table, or a refusal where it panics.
fn check(tally: &mut Tally, what: &str, shape: &[u64], before: &[u64], got: (u32, &[u64]), original: Result<Vec<u64>, u32>) {
    let (number, table) = original.map_or_else(|number| (number, vec![]), |table| (0, table));
    tally.rows += (table.len() / WIDTH) as u64;
    tally.check(what, shape, before, got, number, &table);
}

/// A panic is 3 where the table is shorter than the trace, else 4.
fn fill(tally: &mut Tally, trace: &[u64], lists: &[Vec<u64>; 3], table: &[u64]) {
    let [op_stack, ram, jump_stack] = lists;
    let refusal = if table.len() < trace.len() { 3 } else { 4 };
    let original = oracle::fill(trace, op_stack, ram, jump_stack, table).map_err(|_| refusal);
    let mut after = table.to_vec();
    let got = abi::fill(trace, op_stack, ram, jump_stack, &mut after);
    let shape = [trace.len(), op_stack.len(), ram.len(), jump_stack.len(), table.len()].map(|n| n as u64);
    check(tally, "fill", &shape, table, (got, &after), original);
}

/// A panic is 3.
fn pad(tally: &mut Tally, table: &[u64], table_len: usize) {
    let original = oracle::pad(table, table_len).map_err(|_| 3);
    let mut after = table.to_vec();
    let got = abi::pad(&mut after, table_len);
    check(tally, "pad", &[table.len() as u64, table_len as u64], table, (got, &after), original);
}

/// Traces and tables of up to 12 rows in every combination, larger ones, differences up to and past the last row.
pub fn compare(random: &mut Random, count: u64, rows_compared: &mut u64) -> bool {
    let mut tally = Tally::new("fill and pad");
    let lists = |random: &mut Random, below: u64| -> [Vec<u64>; 3] {
        std::array::from_fn(|_| (0..random.word() % 8).map(|_| random.word() % below).collect())
    };
    for rows in 0..12 {
        for trace_rows in 0..14 {
            let (trace, table) = (words(random, trace_rows * WIDTH), words(random, rows * WIDTH));
            fill(&mut tally, &trace, &Default::default(), &table);
            for below in [trace_rows.max(1), trace_rows + 1, rows + 2] {
                let differences = lists(random, below as u64);
                fill(&mut tally, &trace, &differences, &table);
            }
            pad(&mut tally, &table, trace_rows);
            // what padding overwrites may hold any word
            let beyond: Vec<u64> =
                (0..rows * WIDTH).map(|i| if i < trace_rows * WIDTH { random.base() } else { random.any() }).collect();
            pad(&mut tally, &beyond, trace_rows);
        }
    }
    for difference in [30, 31, 32, 33, u32::MAX as u64, 1 << 40] {
        for list in 0..3 {
            let mut differences: [Vec<u64>; 3] = Default::default();
            differences[list] = vec![3, difference];
            fill(&mut tally, &words(random, 32 * WIDTH), &differences, &words(random, 40 * WIDTH));
        }
    }
    for _ in 0..count {
        let (rows, more) = (random.word() as usize % 60 + 1, random.word() as usize % 60);
        let differences = lists(random, rows as u64);
        fill(&mut tally, &words(random, rows * WIDTH), &differences, &words(random, (rows + more) * WIDTH));
        pad(&mut tally, &words(random, (rows + more) * WIDTH), rows);
    }
    let many: [Vec<u64>; 3] = std::array::from_fn(|_| (0..50_000).map(|_| random.word() % 20_000).collect());
    fill(&mut tally, &words(random, 20_000 * WIDTH), &many, &words(random, 32_768 * WIDTH));
    pad(&mut tally, &words(random, 65_536 * WIDTH), 40_000);
    *rows_compared += tally.rows;
    tally.report()
}
