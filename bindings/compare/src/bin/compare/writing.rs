//! Writing; then opening what was written, and writing that again.

use compare::plain::batch::{self, is_wrong_height, LENGTHS};
use compare::random::Random;
use compare::tally::Tally;
use tealbobbin::abi;
use tealbobbin::batch::{Form, MAX_DIFFERENCES, MAX_IO_WORDS, MAX_LOG2_HEIGHT, MAX_TRACE_ROWS};
use tealbobbin::field::P;
use tealbobbin::processor::MAIN_WIDTH;

use crate::batches::{any_height, bad, below, words};

/// What a batch is to bring: trace, op stack, RAM, jump stack, sampled, digest, input and output; and its k, or 0 for none.
#[derive(Clone)]
struct Contents {
    words: [Vec<u64>; 8],
    k: u64,
}

/// What a call may be given.
const KINDS: [&str; 3] = ["no k", "2^k rows", "another k"];

/// The slices that are any number of words, with the most of each.
const LISTS: [(usize, usize); 5] =
    [(1, MAX_DIFFERENCES), (2, MAX_DIFFERENCES), (3, MAX_DIFFERENCES), (6, MAX_IO_WORDS), (7, MAX_IO_WORDS)];

/// In one form.
struct Writing<'a> {
    form: Form,
    tally: Tally,
    opened: Tally,
    again: Tally,
    random: &'a mut Random,
}

impl Contents {
    fn slices(&self) -> [&[u64]; 8] {
        self.words.each_ref().map(Vec::as_slice)
    }

    /// The length of the batch that they would have.
    fn length(&self) -> usize {
        batch::length(&self.slices(), self.k)
    }

    fn shape(&self, length: usize) -> Vec<u64> {
        self.words.iter().map(|words| words.len() as u64).chain([length as u64, self.k]).collect()
    }

    fn rows(&self) -> usize {
        self.words[0].len() / MAIN_WIDTH
    }

    /// The same with this k.
    fn with_height(&self, k: u64) -> Contents {
        Contents { k, ..self.clone() }
    }

    /// Every word, in every slice, becomes this one.
    fn fill(&mut self, word: u64) {
        self.words.iter_mut().for_each(|slice| slice.fill(word));
    }
}

impl Writing<'_> {
    /// A word that says the form: 0 says plain, any other Montgomery.
    fn form_word(&mut self) -> u64 {
        let others = [1, 2, 10, 255, 256, 1 << 32, 1 << 63, u64::MAX, self.random.word().max(1)];
        match self.form {
            Form::Plain => 0,
            Form::Montgomery => others[below(self.random, others.len())],
        }
    }

    /// The number and every byte of a slice of this length, and those after it; answers the number that was expected, and what was
    /// written.
    fn check(&mut self, what: &str, contents: &Contents, length: usize) -> (u32, Vec<u8>) {
        let mark = self.random.word().to_le_bytes();
        let before: Vec<u8> = mark.into_iter().cycle().take(length + 16).collect();
        let (mut ours, mut expected) = (before.clone(), before.clone());
        let number = batch::write(contents.slices(), self.form, contents.k, &mut expected[..length]);
        let got = abi::write(contents.slices(), self.form_word(), contents.k, &mut ours[..length]);
        self.tally.check(what, &contents.shape(length), &before, (got, &ours), number, &expected);
        let wrong = is_wrong_height(contents.k, contents.rows());
        self.tally.count(if contents.k == 0 { 0 } else { 1 + wrong as usize });
        ours.truncate(length);
        (number, ours)
    }

    /// As `check`, where only one number can be meant.
    fn expect(&mut self, what: &str, contents: &Contents, length: usize, number: u32) -> Vec<u8> {
        let (meant, written) = self.check(what, contents, length);
        if meant != number {
            self.tally.differ(format!("{what}: a case for {number} is one for {meant}"));
        }
        written
    }

    /// Contents that are written; what was written opens to them, with the differences sorted, and these are written as the same
    /// bytes.
    fn sound(&mut self, what: &str, contents: &Contents) {
        let written = self.expect(what, contents, contents.length(), 0);
        let mut sorted = contents.words.clone();
        sorted[1..4].iter_mut().for_each(|list| list.sort_unstable());

        let before = LENGTHS.map(|length| vec![self.random.word(); length]);
        let (mut opened, mut expected) = (before.clone(), before.clone());
        for (slice, words) in expected.iter_mut().zip(&sorted) {
            slice[..words.len()].copy_from_slice(words);
        }
        let [_, op_stack, ram, jump_stack, _, _, input, output] = contents.words.each_ref().map(|words| words.len() as u64);
        expected[8] = vec![contents.rows() as u64, op_stack, ram, jump_stack, input, output, contents.k];
        let [lent @ .., counts] = opened.each_mut().map(Vec::as_mut_slice);
        let got = abi::open(&written, lent, counts);
        let shape = contents.shape(written.len());
        self.opened.check(what, &shape, &before.concat(), (got, &opened.concat()), 0, &expected.concat());

        let k = opened[8][6];
        let opened: [&[u64]; 8] = std::array::from_fn(|slice| &opened[slice][..contents.words[slice].len()]);
        let before = vec![0xa5; written.len()];
        let mut again = before.clone();
        let got = abi::write(opened, self.form_word(), k, &mut again);
        self.again.check(what, &shape, &before, (got, &again), 0, &written);
    }
}

/// Differences as they may come: anything, sorted, the other way round, few different ones, rows of a trace.
fn differences(random: &mut Random, n: usize) -> Vec<u64> {
    let mut list = words(random, n);
    match random.word() % 6 {
        0 => list.sort_unstable(),
        1 => list.sort_unstable_by(|a, b| b.cmp(a)),
        2 => list.iter_mut().for_each(|word| *word %= 3),
        3 => list.iter_mut().for_each(|word| *word %= MAX_TRACE_ROWS as u64),
        4 => list.fill(random.base()),
        _ => (),
    }
    list
}

/// With these numbers of rows, differences, and words of input and of output; of two, one with a k that fits, if there is one.
fn contents(random: &mut Random, rows: usize, counts: [usize; 5]) -> Contents {
    let [op_stack, ram, jump_stack, input, output] = counts;
    let words = [
        words(random, rows * MAIN_WIDTH),
        differences(random, op_stack),
        differences(random, ram),
        differences(random, jump_stack),
        words(random, 177),
        words(random, 5),
        words(random, input),
        words(random, output),
    ];
    let k = if random.word() % 2 == 0 { 0 } else { any_height(random, rows) };
    Contents { words, k }
}

fn largest(random: &mut Random) -> Contents {
    contents(random, MAX_TRACE_ROWS, LISTS.map(|list| list.1))
}

/// Counts at random, most of them low.
fn any(random: &mut Random) -> Contents {
    let most = [1, 2, 3, 9, 128][below(random, 5)];
    let rows = 1 + below(random, most.min(MAX_TRACE_ROWS));
    let counts = LISTS.map(|(_, list)| below(random, most.min(list) + 1));
    contents(random, rows, counts)
}

/// Every number of rows, every length of each list, the largest batch, and `count` others.
fn sound(writing: &mut Writing, count: u64) {
    for rows in 1..=MAX_TRACE_ROWS {
        let contents = contents(writing.random, rows, [rows, 0, 1, 2, 3]);
        writing.sound("rows", &contents);
    }
    for (list, (_, most)) in LISTS.into_iter().enumerate() {
        for n in 0..=most {
            let mut counts = [0; 5];
            counts[list] = n;
            let contents = contents(writing.random, 1, counts);
            writing.sound("counts", &contents);
        }
    }
    for _ in 0..200 {
        let contents = largest(writing.random);
        assert_eq!(contents.length(), 16_088 + if contents.k == 0 { 0 } else { 2 });
        writing.sound("largest", &contents);
    }
    for _ in 0..count {
        let contents = any(writing.random);
        writing.sound("any", &contents);
    }
}

/// The contents with another length of one slice, words not below p in the place of what is missing.
fn resized(contents: &Contents, slice: usize, length: usize) -> Contents {
    let mut contents = contents.clone();
    contents.words[slice].resize(length, P);
    contents
}

/// Slices of other lengths, and batches of other lengths, with words below p and not, and with rows within range and not.
fn lengths(writing: &mut Writing) {
    for rows in [0, 1, 2, 31, 32, 33, 34, 65, 1000] {
        for counts in [[0; 5], [1; 5], [128, 128, 128, 64, 64]] {
            let mut contents = contents(writing.random, rows, counts);
            let right = contents.length();
            let number = if (1..=MAX_TRACE_ROWS).contains(&rows) { 0 } else { 3 };
            writing.expect("rows", &contents, right, number);
            for wrong in [0, 1, right - 313, right - 9, right - 2, right - 1, right + 1, right + 2, right + 9, right + 313, 16_384, 2 * right, 1777] {
                if wrong != right {
                    writing.expect("batch", &contents, wrong, 1);
                }
            }
            for (slice, _) in LENGTHS.iter().enumerate().take(8) {
                let n = contents.words[slice].len();
                let others: &[usize] = match slice {
                    0 => &[n + 1, n + 38, n + 40],
                    1..=3 => &[129, 130, 257, 1248],
                    6 | 7 => &[65, 66, 128, 129],
                    _ => &[0, n - 1, n + 1, 2 * n],
                };
                for &other in others {
                    let contents = resized(&contents, slice, other);
                    writing.expect("slice", &contents, contents.length(), 1);
                    writing.expect("slice", &contents, right, 1);
                }
            }
            contents.fill(P);
            writing.expect("words and rows", &contents, right, if number == 0 { 2 } else { number });
            writing.expect("words and batch", &contents, right + 1, 1);
        }
    }
}

/// A word that is not below p in every place of every slice.
fn bad_words(writing: &mut Writing) {
    for counts in [[2; 5], [128, 128, 128, 64, 64]] {
        let mut contents = contents(writing.random, 2, counts);
        for slice in 0..contents.words.len() {
            for place in 0..contents.words[slice].len() {
                for word in [P, P + 1, u64::MAX, bad(writing.random)] {
                    let kept = std::mem::replace(&mut contents.words[slice][place], word);
                    writing.expect("bad word", &contents, contents.length(), 2);
                    contents.words[slice][place] = kept;
                }
            }
        }
    }
}

/// Every k up to 40, and large ones, some of them in range by their low bits, with every number of rows, in range and not: between 3
/// and 2, behind 1.
fn heights(writing: &mut Writing) {
    for rows in 0..=40 {
        let whole = contents(writing.random, rows, [1; 5]);
        for k in (0..=40).chain([64 + 5, 128, 255, 256, 256 + 5, (1 << 32) + 5, (1 << 63) + 5, u64::MAX]) {
            let mut contents = whole.with_height(k);
            let right = contents.length();
            let number = |right: u32| match rows {
                1..=MAX_TRACE_ROWS if k == 0 || k <= MAX_LOG2_HEIGHT.into() && rows <= 1 << k => right,
                1..=MAX_TRACE_ROWS => 12,
                _ => 3,
            };
            writing.expect("height", &contents, right, number(0));
            writing.expect("height and batch", &contents, if k == 0 { right + 2 } else { right - 2 }, 1);
            contents.fill(P);
            writing.expect("height and words", &contents, right, number(2));
            writing.expect("height, words and batch", &contents, right + 1, 1);
        }
    }
}

/// Contents with several faults, or none.
fn faulty(random: &mut Random) -> (Contents, usize) {
    let mut contents = any(random);
    for _ in 0..below(random, 3) {
        let slice = below(random, contents.words.len());
        let words = &mut contents.words[slice];
        let n = words.len();
        match random.word() % 5 {
            0 => words.resize([n + 1, n.saturating_sub(1), 0, 2 * n][below(random, 4)], 0),
            1 => words.resize(LENGTHS[slice] + below(random, 2), random.any()),
            2 if n > 0 => words[below(random, n)] = bad(random),
            3 => contents.k = [1, 4, 5, 22, 23, random.any()][below(random, 6)],
            _ => contents.words[0].resize([0, 32, 33, 40][below(random, 4)] * MAIN_WIDTH, 7),
        }
    }
    let length = contents.length();
    let other = [length + 1, length - 1, length + 2, length - 2, length + 9, length + 313, below(random, 17_000)][below(random, 7)];
    (contents, if random.word() % 8 == 0 { other } else { length })
}

const NAMES: [(Form, [&str; 3]); 2] = [
    (Form::Plain, ["write, plain rows", "open, what was written, plain rows", "write, that again, plain rows"]),
    (
        Form::Montgomery,
        ["write, rows in Montgomery form", "open, what was written, rows in Montgomery form", "write, that again, rows in Montgomery form"],
    ),
];

/// In each form contents that are written, and written again once they are opened; then contents with every fault; `count` at random.
pub fn compare(random: &mut Random, count: u64) -> bool {
    NAMES.into_iter().fold(true, |right, (form, names)| compare_form(random, count / 2, form, names) & right)
}

fn compare_form(random: &mut Random, count: u64, form: Form, names: [&'static str; 3]) -> bool {
    let [name, opened, again] = names;
    let (tally, opened, again) = (Tally::of_kinds(name, &KINDS), Tally::new(opened), Tally::new(again));
    let mut writing = Writing { form, tally, opened, again, random };
    sound(&mut writing, count);
    lengths(&mut writing);
    bad_words(&mut writing);
    heights(&mut writing);
    for _ in 0..count {
        let (contents, length) = faulty(writing.random);
        writing.check("faulty", &contents, length);
    }
    writing.tally.reached(&[0, 1, 2, 3, 12]);
    writing.tally.report() & writing.opened.report() & writing.again.report()
}
