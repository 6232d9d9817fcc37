//! Compares the library with plain Rust: prints each difference, and exits with 1 if there is one.
//!
//!     compare [SEED] [COUNT]

mod arithmetic;
mod batches;
mod cases;
mod checking;
mod decoding;
mod derived;
mod extension;
mod montgomery;
mod scans;
mod tables;
mod terminals;
mod writing;

use compare::random::Random;

fn main() {
    let mut arguments = std::env::args().skip(1).map(|word| word.parse::<u64>().expect("a number"));
    let seed = arguments.next().unwrap_or(1);
    let count = arguments.next().unwrap_or(300_000);
    let mut random = Random(seed);
    println!("compare: seed {seed}, count {count}");
    let right = [
        arithmetic::compare(&mut random, count),
        montgomery::compare(&mut random, count),
        decoding::compare(&mut random, count),
        derived::compare(&mut random, count / 100),
        scans::compare(&mut random, count / 300),
        tables::compare(&mut random, count / 100),
        extension::compare(&mut random, count / 3),
        batches::compare(&mut random, count * 4),
        writing::compare(&mut random, count / 3),
        terminals::compare(&mut random, 4 + count / 10_000),
        checking::compare(&mut random, count / 10),
    ];
    std::process::exit(if right.iter().all(|&r| r) { 0 } else { 1 });
}
