//! Counts what was compared, and prints what differs.

use std::fmt::Debug;

/// What stands in a lent slice before a call, so that a word written after a refusal shows.
const MARK: u64 = 0x5ca1_ab1e_0000_0000;

pub fn marks(length: usize) -> Vec<u64> {
    (0..length).map(|i| MARK + i as u64).collect()
}

/// The kinds of what decoding answers, by its first word.
pub const DECODED: [&str; 4] = ["opcode unknown", "read", "argument outside 0 to 15", "argument outside 1 to 5"];

/// The heights at which walks are compared, 2^k rows.
pub const HEIGHTS: [(u64, &str); 17] = [
    (1, "k 1"),
    (2, "k 2"),
    (3, "k 3"),
    (4, "k 4"),
    (5, "k 5"),
    (6, "k 6"),
    (7, "k 7"),
    (8, "k 8"),
    (9, "k 9"),
    (10, "k 10"),
    (11, "k 11"),
    (12, "k 12"),
    (13, "k 13"),
    (14, "k 14"),
    (16, "k 16"),
    (18, "k 18"),
    (22, "k 22"),
];

pub struct Tally {
    name: &'static str,
    compared: u64,
    /// Calls by the number that was expected, 0 for success.
    answered: [u64; 13],
    /// Kinds of calls, each to be met at least once.
    kinds: Vec<(&'static str, u64)>,
    different: u64,
    /// Rows of the tables that both sides wrote.
    pub rows: u64,
}

impl Tally {
    pub fn new(name: &'static str) -> Tally {
        Tally { name, compared: 0, answered: [0; 13], kinds: vec![], different: 0, rows: 0 }
    }

    pub fn of_kinds(name: &'static str, kinds: &[&'static str]) -> Tally {
        Tally { kinds: kinds.iter().map(|&kind| (kind, 0)).collect(), ..Tally::new(name) }
    }

    /// A call of the kind with this place in the list.
    pub fn count(&mut self, kind: usize) {
        self.kinds[kind].1 += 1;
    }

    /// A call's number and what the lent slice held before and holds now, against the number and the words that are expected.
    /// After a refusal the slice is to hold what it held. Words may also be bytes.
    pub fn check<T>(&mut self, what: &str, input: &[u64], before: &[T], got: (u32, &[T]), number: u32, words: &[T])
    where
        T: Copy + PartialEq + Debug,
    {
        self.compared += 1;
        self.answered[number as usize] += 1;
        let wanted = if number == 0 { words } else { before };
        if got.0 != number || got.1 != wanted {
            let at = got.1.iter().zip(wanted).position(|(g, w)| g != w).unwrap_or(0);
            let from = |words: &[T]| words.iter().skip(at).take(16).copied().collect::<Vec<T>>();
            let input = &input[..input.len().min(16)];
            self.differ(format!("{what} {input:?}: got {} {:?}, expected {number} {:?}, from word {at} on", got.0, from(got.1), from(wanted)));
        }
    }

    /// As `check` where one word is written, for many calls in a short time.
    #[inline]
    pub fn check_word(&mut self, what: &str, input: &[u64], got: (u32, u64), word: u64) {
        self.compared += 1;
        self.answered[0] += 1;
        if got != (0, word) {
            self.differ(format!("{what} {input:?}: got {} {}, expected 0 {word}", got.0, got.1));
        }
    }

    pub fn differ(&mut self, what: String) {
        self.different += 1;
        if self.different <= 20 {
            println!("{}: {what}", self.name);
        }
    }

    /// Each of these answers, 0 for success, is to have been expected at least once, and each kind met.
    pub fn reached(&mut self, numbers: &[usize]) {
        for &number in numbers {
            if self.answered[number] == 0 {
                self.differ(format!("no case for {number}"));
            }
        }
        for (kind, count) in self.kinds.clone() {
            if count == 0 {
                self.differ(format!("no case for {kind}"));
            }
        }
    }

    /// One line for all that was compared; whether there was no difference.
    pub fn report(&self) -> bool {
        let refused = (1..self.answered.len()).filter(|&n| self.answered[n] > 0).map(|n| format!("{n}: {}", self.answered[n]));
        let refused: Vec<String> = refused.collect();
        let refused = if refused.is_empty() { "none refused".into() } else { format!("refused {}", refused.join(", ")) };
        let rows = if self.rows > 0 { format!("; {} rows of tables", self.rows) } else { String::new() };
        let kinds: String = self.kinds.iter().map(|(kind, count)| format!("; {kind}: {count}")).collect();
        let (name, compared, done, different) = (self.name, self.compared, self.answered[0], self.different);
        println!("{name}: {compared} calls compared, {done} done, {refused}{rows}{kinds}; {different} differences");
        self.different == 0
    }
}
