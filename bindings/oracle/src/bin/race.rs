//! The original and the library on one thread, on the same inputs, in one run: nanoseconds a row, item or word, the best of several
//! runs of each, and the library's time over the original's. Growth is the library's time over that at the size before.
//! The original's tables lie column by column; it also runs on tables that lie row by row, as the library's do, and its better
//! time counts.
//!
//!     race [terminals | check]
//!
//! The last two tables have the walk of padding rows beside the original's fill, pad and extension of the whole table, and check beside
//! extension. With its word a table is the only one; that of `terminals` then goes on to 2^20 rows, and to 2^22 for the library alone.

use std::hint::black_box;
use std::time::{Duration, Instant};

use compare::extensions::Extend;
use compare::plain::batch;
use compare::plain::extension::column::{CI, IS_PADDING, NIA};
use compare::plain::extension::opcode::MERKLE_STEP;
use compare::random::Random;
use oracle::rows::{HALT, Mix, OPCODES, REALISTIC, WORST, mixed};
use oracle::{Claimed, Differences, Extension, Items, MAIN_WIDTH, Main, Order, Sampled, Trace};
use tealbobbin::abi;
use tealbobbin::batch::{Form, MAX_TRACE_ROWS};
use tealbobbin::field::P;
use tealbobbin::processor::work_len;

/// The chunk length of extension.
const CHUNK: usize = 4096;

/// The rows of the tables.
const ROWS: [usize; 3] = [1 << 12, 1 << 16, 1 << 18];

fn timed<T>(run: impl FnOnce() -> T) -> Duration {
    let began = Instant::now();
    black_box(run());
    began.elapsed()
}

/// The best time of each side, in nanoseconds a row, item or word. The sides run in turn, so that all meet the machine in the same
/// mood, at least nine times and for two seconds; after twenty seconds no round begins.
fn best<const N: usize>(size: usize, mut sides: [&mut dyn FnMut() -> Duration; N]) -> [f64; N] {
    let mut best = [f64::INFINITY; N];
    let (began, mut rounds) = (Instant::now(), 0);
    while began.elapsed() < Duration::from_secs(if rounds < 9 { 20 } else { 2 }) {
        for (side, best) in sides.iter_mut().zip(&mut best) {
            *best = best.min(side().as_secs_f64() * 1e9 / size as f64);
        }
        rounds += 1;
    }
    best
}

fn words(random: &mut Random, n: usize) -> Vec<u64> {
    (0..n).map(|_| random.word() % P).collect()
}

/// The original's time and the library's.
type Times = [f64; 2];

fn extend(random: &mut Random, mix: Mix, rows: usize, padding: usize, every: u64) -> Times {
    let main = mixed(random, mix, rows, padding, every);
    let challenges = words(random, 189);
    let mut by_columns = Extension::new(&main, &challenges, Order::Columns);
    let mut by_rows = Extension::new(&main, &challenges, Order::Rows);
    let (mut aux, mut work) = (vec![0; 33 * rows], vec![0; work_len(rows, CHUNK)]);
    let [columns, row_by_row, library] = best(
        rows,
        [
            &mut || timed(|| by_columns.run()),
            &mut || timed(|| by_rows.run()),
            &mut || timed(|| assert_eq!(abi::extend(&main, &challenges, CHUNK, &mut aux, &mut work), 0)),
        ],
    );
    assert!(aux == by_columns.words() && aux == by_rows.words());
    [columns.min(row_by_row), library]
}

/// Ordinary extension in the original's place, and strict extension.
fn extend_strict(random: &mut Random, mix: Mix, rows: usize, padding: usize, every: u64) -> Times {
    let (main, challenges) = (mixed(random, mix, rows, padding, every), words(random, 189));
    let [mut ordinary, mut strict] = [(); 2].map(|()| (vec![0; 33 * rows], vec![0; work_len(rows, CHUNK)]));
    let run = |extend: Extend, (aux, work): &mut (Vec<u64>, Vec<u64>)| {
        timed(|| assert_eq!(extend(&main, &challenges, CHUNK, aux, work), 0))
    };
    let times = best(rows, [&mut || run(abi::extend, &mut ordinary), &mut || run(abi::extend_strict, &mut strict)]);
    assert!(ordinary == strict);
    times
}

/// Extension in the original's place, and check of the columns that it writes.
fn check(random: &mut Random, mix: Mix, rows: usize, padding: usize, every: u64) -> Times {
    let (main, challenges) = (mixed(random, mix, rows, padding, every), words(random, 189));
    let (mut aux, mut work, mut verdict) = (vec![0; 33 * rows], vec![0; work_len(rows, CHUNK)], [0]);
    assert_eq!(abi::extend(&main, &challenges, CHUNK, &mut aux, &mut work), 0);
    let offered = aux.clone();
    let times = best(
        rows,
        [
            &mut || timed(|| assert_eq!(abi::extend(&main, &challenges, CHUNK, &mut aux, &mut work), 0)),
            &mut || timed(|| assert_eq!(abi::check(&main, &challenges, &offered, &mut verdict), 0)),
        ],
    );
    assert!(verdict == [1] && aux == offered);
    times
}

/// A trace as high as the table, one difference a row.
fn fill(random: &mut Random, rows: usize) -> Times {
    let trace = words(random, rows * MAIN_WIDTH);
    let mut table = vec![0; rows * MAIN_WIDTH];
    let lists = [rows / 2, rows / 4, rows / 4].map(|n| (0..n).map(|_| random.word() % rows as u64).collect::<Vec<u64>>());
    let [op_stack, ram, jump_stack] = lists.each_ref().map(|list| list.as_slice());
    let (original, differences) = (Trace::new(&trace), Differences::new([op_stack, ram, jump_stack]));
    let [mut by_columns, mut by_rows] = [Order::Columns, Order::Rows].map(|order| Main::new(&table, order));
    let into = |table: &mut Main| {
        let differences = differences.clone();
        timed(|| table.fill(&original, differences))
    };
    let [columns, row_by_row, library] = best(
        rows,
        [
            &mut || into(&mut by_columns),
            &mut || into(&mut by_rows),
            &mut || timed(|| assert_eq!(abi::fill(&trace, op_stack, ram, jump_stack, &mut table), 0)),
        ],
    );
    assert!(table == by_columns.words() && table == by_rows.words());
    [columns.min(row_by_row), library]
}

/// The most padding that the smallest power of two of rows has.
fn pad(random: &mut Random, rows: usize) -> Times {
    let table_len = rows / 2 + 1;
    let mut table = words(random, rows * MAIN_WIDTH);
    let [mut by_columns, mut by_rows] = [Order::Columns, Order::Rows].map(|order| Main::new(&table, order));
    let [columns, row_by_row, library] = best(
        rows,
        [
            &mut || timed(|| by_columns.pad(table_len)),
            &mut || timed(|| by_rows.pad(table_len)),
            &mut || timed(|| assert_eq!(abi::pad(&mut table, table_len), 0)),
        ],
    );
    assert!(table == by_columns.words() && table == by_rows.words());
    [columns.min(row_by_row), library]
}

/// A claim with that many words of input, and without output. Without input, the time is that of the call.
fn challenges(random: &mut Random, input: usize) -> Times {
    let (sampled, digest, input) = (words(random, 177), [1, 2, 3, 4, 5], words(random, input));
    let (claim, original) = (Claimed::new(&digest, &input, &[]), Sampled::new(&sampled));
    let mut record = vec![0; 189];
    let times = best(
        input.len().max(1),
        [
            &mut || {
                let sampled = original.clone();
                timed(|| claim.challenges(sampled))
            },
            &mut || timed(|| assert_eq!(abi::challenges(&sampled, &digest, &input, &[], &mut record), 0)),
        ],
    );
    assert!(record == claim.challenges(original).words());
    times
}

type Scan = fn(&mut [u64], usize) -> u32;

/// By chunks of the original's length, a quarter of the items.
fn scan(random: &mut Random, width: usize, hold: fn(&[u64]) -> Items, scan: Scan, items: usize) -> Times {
    let mut library = words(random, items * width);
    let mut original = hold(&library);
    let times = best(
        items,
        [&mut || timed(|| original.scan()), &mut || timed(|| assert_eq!(scan(&mut library, items / 4), 0))],
    );
    assert!(library == original.words());
    times
}

/// One line for each size; answers the ratios.
fn lines(what: &str, sizes: &[usize], mut race: impl FnMut(usize) -> Times) -> Vec<f64> {
    let (mut before, mut ratios) = (None, vec![]);
    for &size in sizes {
        let [original, library] = race(size);
        ratios.push(library / original);
        let growth = before.map_or(String::new(), |before: f64| format!("{:.2}", library / before));
        println!("{what:<20} {size:>8} {original:>10.1} {library:>10.1} {:>8.2} {growth:>8}", library / original);
        before = Some(library);
    }
    ratios
}

fn header(first: &str, second: &str) {
    println!("{:<20} {:>8} {first:>10} {second:>10} {:>8} {:>8}", "nanoseconds", "size", "ratio", "growth");
}

/// What a batch brings: as many trace rows as it may, each with this instruction, and differences for every row.
fn run(random: &mut Random, code: u64) -> [Vec<u64>; 8] {
    let mut trace = words(random, MAX_TRACE_ROWS * MAIN_WIDTH);
    trace.chunks_exact_mut(MAIN_WIDTH).for_each(|row| (row[CI], row[NIA], row[IS_PADDING]) = (code, 5, 0));
    let [op_stack, ram, jump_stack] = [(); 3].map(|()| (0..MAX_TRACE_ROWS as u64).collect());
    [trace, op_stack, ram, jump_stack, words(random, 177), words(random, 5), vec![], vec![]]
}

/// Its batch at 2^k rows.
fn sent(contents: &[Vec<u64>; 8], k: u32) -> Vec<u8> {
    let slices = contents.each_ref().map(Vec::as_slice);
    let mut bytes = vec![0; batch::length(&slices, k.into())];
    assert_eq!(batch::write(slices, Form::Plain, k.into(), &mut bytes), 0);
    bytes
}

fn walk(bytes: &[u8]) -> Duration {
    let mut cells = [0; 33];
    timed(|| assert_eq!(abi::terminals(black_box(bytes), &mut cells), 0))
}

/// The library's times over all instructions that a trace may end in, each the best of nine.
fn every_instruction(random: &mut Random) {
    let rows = 1 << 18;
    let times = OPCODES.map(|code| {
        let bytes = sent(&run(random, code), 18);
        (0..9).map(|_| walk(&bytes).as_secs_f64() * 1e9 / rows as f64).fold(f64::INFINITY, f64::min)
    });
    let [least, most] = [f64::min as fn(f64, f64) -> f64, f64::max].map(|of| times.into_iter().reduce(of).expect("46 instructions"));
    println!("{:<20} {rows:>8} {:>10} {least:>10.1} to {most:.1}", "walk, any", "");
}

/// A trace that ends in this instruction: from the batch to the cells, and the original's fill, pad and extension.
fn terminals(random: &mut Random, last: u64, height: usize) -> Times {
    let contents = run(random, last);
    let [trace, op_stack, ram, jump_stack, sampled, digest, ..] = contents.each_ref().map(Vec::as_slice);
    let record = oracle::challenges(sampled, digest.try_into().expect("five words"), &[], &[]).expect("59 elements");
    let (original, differences) = (Trace::new(trace), Differences::new([op_stack, ram, jump_stack]));
    let [mut by_columns, mut by_rows] = [Order::Columns, Order::Rows].map(|order| Extension::blank(height, &record, order));
    let whole = |table: &mut Extension| {
        let differences = differences.clone();
        timed(|| table.from_trace(&original, differences))
    };
    let bytes = sent(&contents, height.ilog2());
    let [columns, row_by_row, library] =
        best(height, [&mut || whole(&mut by_columns), &mut || whole(&mut by_rows), &mut || walk(&bytes)]);
    let mut cells = [0; 33];
    assert_eq!(abi::terminals(&bytes, &mut cells), 0);
    assert!(cells == by_columns.last_row() && cells == by_rows.last_row());
    [columns.min(row_by_row), library]
}

/// Traces that end in halt, and in an instruction whose padding rows bring entries to as many columns as any, each with the ratio
/// that it is to keep below at 2^18 rows.
const ENDS: [(&str, u64, f64); 2] = [("walk, halt", HALT, 0.1), ("walk, merkle_step", MERKLE_STEP, 0.2)];

fn terminals_at(random: &mut Random, heights: &[usize]) {
    header("original", "library");
    for (what, last, limit) in ENDS {
        let ratios = lines(what, heights, |height| terminals(random, last, height));
        if heights.iter().zip(ratios).any(|(&height, ratio)| height == 1 << 18 && ratio > limit) {
            println!("{what}: over {limit} at 2^18 rows");
        }
    }
    every_instruction(random);
}

/// Check is to take no longer than extension.
fn checks(random: &mut Random) {
    header("extend", "check");
    let realistic =
        lines("check, realistic", &[&ROWS[..], &[1 << 20]].concat(), |rows| check(random, REALISTIC, rows, rows / 4, 10));
    let worst = lines("check, worst", &ROWS, |rows| check(random, WORST, rows, 0, 1));
    if realistic.iter().chain(&worst).any(|&ratio| ratio > 1.0) {
        println!("check: over extension's time");
    }
}

fn main() {
    let random = &mut Random(7);
    match std::env::args().nth(1).as_deref() {
        None => tables(random),
        Some("check") => checks(random),
        Some("terminals") => {
            terminals_at(random, &[1 << 12, 1 << 16, 1 << 18, 1 << 20]);
            for (what, last, _) in ENDS {
                let (bytes, rows) = (sent(&run(random, last), 22), 1 << 22);
                let [library] = best(rows, [&mut || walk(&bytes)]);
                println!("{what:<20} {rows:>8} {:>10} {library:>10.1}", "");
            }
        }
        Some(other) => panic!("{other}: race [terminals | check]"),
    }
}

fn tables(random: &mut Random) {
    header("original", "library");
    lines("extend, realistic", &[&ROWS[..], &[1 << 20]].concat(), |rows| extend(random, REALISTIC, rows, rows / 4, 10));
    lines("extend, worst", &ROWS, |rows| extend(random, WORST, rows, 0, 1));
    lines("fill", &ROWS, |rows| fill(random, rows));
    lines("pad", &ROWS, |rows| pad(random, rows));
    lines("challenges, a call", &[0], |input| challenges(random, input));
    lines("challenges, a word", &[1 << 16], |input| challenges(random, input));
    let items = [1 << 16, 1 << 20];
    lines("scan of maps", &items, |items| scan(random, 6, Items::maps, abi::scan_maps, items));
    lines("scan of products", &items, |items| scan(random, 3, Items::products, abi::scan_products, items));
    lines("scan of sums", &items, |items| scan(random, 3, Items::sums, abi::scan_sums, items));
    header("extend", "strictly");
    lines("extend, realistic", &ROWS, |rows| extend_strict(random, REALISTIC, rows, rows / 4, 10));
    lines("extend, worst", &ROWS, |rows| extend_strict(random, WORST, rows, 0, 1));
    terminals_at(random, &ROWS);
    checks(random);
}
