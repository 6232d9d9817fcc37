//! Both checks of columns, side by side.

use tealbobbin::abi;
use tealbobbin::air::ProcessorAuxColumn;
use tealbobbin::field::P;
use tealbobbin::processor::work_len;

use crate::extensions;
use crate::plain::add;
use crate::plain::extension::{AUX_WIDTH, WIDTH};
use crate::random::Random;
use crate::tally::{marks, Tally};

pub type Check = fn(&[u64], &[u64], &[u64], &mut [u64]) -> u32;

/// Each with the words of its verdict.
pub const CHECKS: [(&str, Check, usize); 2] = [("check", abi::check, 1), ("check_at", abi::check_at, 3)];

/// A row, and a column in it.
pub type Place = (usize, usize);

/// What both are to answer.
#[derive(Debug, Clone, Copy, PartialEq, Eq)]
pub enum Verdict {
    Yes,
    No(Place),
    Refused(u32),
}

/// Verdicts that are to be met; in the tally the eleven columns of a no follow.
const KINDS: [&str; 4] = ["yes", "no in row 0", "no in a row between", "no in the last row"];

/// With these kinds too.
pub fn tally(others: &[&'static str]) -> Tally {
    Tally::of_kinds("check", &[&KINDS, ProcessorAuxColumn::ALL.map(ProcessorAuxColumn::name).as_slice(), others].concat())
}

/// A call of the kind with this place among the others.
pub fn count_other(tally: &mut Tally, kind: usize) {
    tally.count(KINDS.len() + ProcessorAuxColumn::COUNT + kind);
}

/// What both refuse before they look at entries: 1, 3, 2.
pub fn refusal(main: &[u64], challenges: &[u64], offered: &[u64]) -> u32 {
    match extensions::refusal(main, challenges, 1, offered.len(), work_len(main.len() / WIDTH, 1)) {
        0 if offered.iter().any(|&word| word >= P) => 2,
        number => number,
    }
}

/// Where this word of the columns stands.
pub fn place(word: usize) -> Place {
    (word / AUX_WIDTH, word % AUX_WIDTH / 3)
}

/// Another word below p in this place.
pub fn change(random: &mut Random, words: &mut [u64], place: usize) {
    words[place] = add(words[place], 1 + random.word() % (P - 1));
}

/// Both calls.
pub fn check(tally: &mut Tally, main: &[u64], challenges: &[u64], offered: &[u64], verdict: Verdict) {
    count(tally, main.len() / WIDTH, verdict);
    let (number, words) = match verdict {
        Verdict::Yes => (0, [1, 0, 0]),
        Verdict::No((row, column)) => (0, [0, row as u64, column as u64]),
        Verdict::Refused(number) => (number, [0; 3]),
    };
    for (name, check, length) in CHECKS {
        let mut written = marks(length);
        let got = check(main, challenges, offered, &mut written);
        let shape = [main.len(), challenges.len(), offered.len()].map(|n| n as u64);
        tally.check(name, &shape, &marks(length), (got, &written), number, &words[..length]);
    }
}

fn count(tally: &mut Tally, rows: usize, verdict: Verdict) {
    match verdict {
        Verdict::Yes => tally.count(0),
        Verdict::No((row, column)) => {
            tally.count(if row == 0 { 1 } else { 2 + (row == rows - 1) as usize });
            tally.count(KINDS.len() + column);
        }
        Verdict::Refused(_) => {}
    }
}
