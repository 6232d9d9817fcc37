//! Compares the library with the original, word by word: prints each difference, and exits with 1 if there is one.
//!
//!     differential [SEED] [COUNT]

mod checking;
mod claims;
mod constraints;
mod decoding;
mod extension;
mod montgomery;
mod scans;
mod tables;
mod terminals;
mod values;

use compare::random::Random;

fn words(random: &mut Random, n: usize) -> Vec<u64> {
    (0..n).map(|_| random.base()).collect()
}

fn main() {
    let mut arguments = std::env::args().skip(1).map(|word| word.parse::<u64>().expect("a number"));
    let seed = arguments.next().unwrap_or(1);
    let count = arguments.next().unwrap_or(80_000);
    let mut random = Random(seed);
    let mut rows = 0;
    println!("differential: seed {seed}, count {count}");
    let right = [
        values::compare(),
        decoding::compare(&mut random),
        claims::compare(&mut random, count),
        scans::compare(&mut random, count),
        tables::compare(&mut random, count, &mut rows),
        extension::compare(&mut random, count, &mut rows),
        constraints::compare(&mut random),
        montgomery::compare(&mut random, count),
        terminals::compare(&mut random, count / 1_000, &mut rows),
        checking::compare(&mut random, count / 20, &mut rows),
    ];
    println!("{rows} rows of tables compared in all");
    std::process::exit(if right.iter().all(|&r| r) { 0 } else { 1 });
}
