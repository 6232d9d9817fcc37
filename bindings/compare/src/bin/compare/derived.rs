//! The derived challenges.

use compare::plain;
use compare::random::Random;
use compare::tally::{marks, Tally};
use tealbobbin::abi;
use tealbobbin::challenges::{Challenges, SampledChallenges};
use tealbobbin::field::P;
use tealbobbin::processor::MAX_ROWS;

struct Claim {
    sampled: Vec<u64>,
    digest: Vec<u64>,
    input: Vec<u64>,
    output: Vec<u64>,
}

impl Claim {
    fn random(random: &mut Random, input: usize, output: usize) -> Claim {
        let mut words = |n: usize| (0..n).map(|_| random.base()).collect::<Vec<u64>>();
        Claim { sampled: words(SampledChallenges::WORDS), digest: words(5), input: words(input), output: words(output) }
    }

    fn parts(&mut self) -> [&mut Vec<u64>; 4] {
        [&mut self.sampled, &mut self.digest, &mut self.input, &mut self.output]
    }

    fn check(&self, tally: &mut Tally, record: usize) {
        let lengths = self.sampled.len() == SampledChallenges::WORDS && self.digest.len() == 5 && self.input.len() <= MAX_ROWS && self.output.len() <= MAX_ROWS;
        let below = |words: &[u64]| words.iter().all(|&w| w < P);
        let number = if !lengths || record != Challenges::WORDS {
            1
        } else if ![&self.sampled, &self.digest, &self.input, &self.output].iter().all(|words| below(words)) {
            2
        } else {
            0
        };
        let expected = if number == 0 {
            plain::challenges(&self.sampled, &self.digest, &self.input, &self.output)
        } else {
            vec![]
        };
        let mut out = marks(record);
        let got = abi::challenges(&self.sampled, &self.digest, &self.input, &self.output, &mut out);
        let shape = [self.sampled.len() as u64, self.digest.len() as u64, self.input.len() as u64, self.output.len() as u64, record as u64];
        tally.check("challenges", &shape, &marks(record), (got, &out), number, &expected);
    }
}

/// Random claims, empty and long ones among them; slices of wrong lengths; a word that is not below p in every place.
pub fn compare(random: &mut Random, count: u64) -> bool {
    let mut tally = Tally::new("challenges");
    for _ in 0..count {
        let (input, output) = (random.word() % 40, random.word() % 40);
        Claim::random(random, input as usize, output as usize).check(&mut tally, Challenges::WORDS);
    }
    for (input, output) in [(0, 0), (1, 0), (0, 1), (MAX_ROWS, 0), (0, MAX_ROWS), (MAX_ROWS + 1, 0), (0, MAX_ROWS + 1)] {
        Claim::random(random, input, output).check(&mut tally, Challenges::WORDS);
    }
    for record in [0, 1, 186, 187, 188, 190, 192] {
        Claim::random(random, 3, 3).check(&mut tally, record);
    }
    for part in 0..2 {
        for change in [0, 1, 2] {
            let mut claim = Claim::random(random, 2, 2);
            let words = &mut *claim.parts()[part];
            match change {
                0 => words.clear(),
                1 => drop(words.pop()),
                _ => words.push(0),
            }
            claim.check(&mut tally, Challenges::WORDS);
        }
    }
    for part in 0..4 {
        let length = Claim::random(random, 7, 7).parts()[part].len();
        for place in 0..length {
            for bad in [P, u64::MAX] {
                let mut claim = Claim::random(random, 7, 7);
                claim.parts()[part][place] = bad;
                claim.check(&mut tally, Challenges::WORDS);
            }
        }
    }
    tally.report()
}
