//! The derived challenges.

use compare::random::Random;
use compare::tally::{Tally, marks};
use tealbobbin::abi;

use crate::words;

fn claim(tally: &mut Tally, random: &mut Random, input: usize, output: usize) {
    let (sampled, digest) = (words(random, 177), words(random, 5));
    let (input, output) = (words(random, input), words(random, output));
    let mut record = marks(189);
    let got = abi::challenges(&sampled, &digest, &input, &output, &mut record);
    let expected = oracle::challenges(&sampled, &digest.try_into().unwrap(), &input, &output).expect("59 elements");
    tally.check("challenges", &[input.len() as u64, output.len() as u64], &marks(189), (got, &record), 0, &expected);
}

/// Claims with up to 40 words of input and output, and long ones.
pub fn compare(random: &mut Random, count: u64) -> bool {
    let mut tally = Tally::new("challenges");
    for _ in 0..count {
        let (input, output) = (random.word() as usize % 40, random.word() as usize % 40);
        claim(&mut tally, random, input, output);
    }
    for (input, output) in [(0, 0), (0, 1), (1, 0), (100_000, 3), (3, 100_000)] {
        claim(&mut tally, random, input, output);
    }
    tally.report()
}
