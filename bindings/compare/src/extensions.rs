//! Ordinary and strict extension, side by side.

use tealbobbin::abi;
use tealbobbin::challenges::Challenges;
use tealbobbin::field::P;
use tealbobbin::processor::{work_len, MAX_ROWS, WORK_WIDTH};

use crate::plain::extension::{AUX_WIDTH, WIDTH};
use crate::random::Random;
use crate::tally::Tally;

pub type Extend = fn(&[u64], &[u64], usize, &mut [u64], &mut [u64]) -> u32;

pub const EXTENSIONS: [(&str, Extend); 2] = [("extend", abi::extend), ("extend_strict", abi::extend_strict)];

/// The place of strict extension.
pub const STRICT: usize = 1;

/// A chunk length by the number of rows or items; a length of work by rows and chunk length.
type Chunk = (&'static str, fn(usize) -> usize);
type Work = (&'static str, fn(usize, usize) -> usize);

pub const CHUNKS: [Chunk; 11] = [
    ("chunk 1", |_| 1),
    ("chunk 2", |_| 2),
    ("chunk 3", |_| 3),
    ("chunk 4", |_| 4),
    ("chunk 5", |_| 5),
    ("chunk 7", |_| 7),
    ("chunk rows - 1", |rows| rows.max(2) - 1),
    ("chunk rows", |rows| rows.max(1)),
    ("chunk rows + 1", |rows| rows + 1),
    ("chunk rows + 1024", |rows| rows + 1024),
    ("chunk 2^64 - 1", |_| usize::MAX),
];

/// Wrong lengths, where they are not the right one after all.
pub const WORKS: [Work; 8] = [
    ("no work", |_, _| 0),
    ("work a word short", |rows, chunk| work_len(rows, chunk).saturating_sub(1)),
    ("work a word long", |rows, chunk| work_len(rows, chunk) + 1),
    ("work a chunk short", |rows, chunk| work_len(rows, chunk).saturating_sub(WORK_WIDTH)),
    ("work a chunk long", |rows, chunk| work_len(rows, chunk) + WORK_WIDTH),
    ("work of a shorter chunk", |rows, chunk| work_len(rows, chunk.saturating_sub(1))),
    ("work of a longer chunk", |rows, chunk| work_len(rows, chunk.saturating_add(1))),
    ("work by the row", |rows, _| rows * WORK_WIDTH),
];

/// Orders in which 1 for work is met; the last one by strict extension alone.
const ORDERS: [&str; 5] =
    ["5 before 1 for work", "1 for work alone", "1 for work before 2", "1 for work before 6", "1 for work before 11"];

/// One of these lengths, or any up to two more than the items.
pub fn any_chunk(random: &mut Random, items: usize) -> usize {
    match CHUNKS.get(random.word() as usize % (CHUNKS.len() + 1)) {
        Some((_, chunk)) => chunk(items),
        None => 1 + random.word() as usize % (items + 2),
    }
}

/// One of the wrong lengths, once in sixteen times.
pub fn other_work(random: &mut Random, rows: usize, chunk: usize) -> Option<usize> {
    WORKS.get(random.word() as usize % (16 * WORKS.len())).map(|work| work.1(rows, chunk))
}

/// What both refuse before they look at entries, with columns and work of these lengths: 1, 3, 5, 1 for work, 2.
pub fn refusal(main: &[u64], challenges: &[u64], chunk: usize, aux: usize, work: usize) -> u32 {
    let rows = main.len() / WIDTH;
    if main.len() % WIDTH != 0 || challenges.len() != Challenges::WORDS || aux != rows * AUX_WIDTH {
        1
    } else if rows == 0 || rows > MAX_ROWS {
        3
    } else if chunk == 0 {
        5
    } else if work != work_len(rows, chunk) {
        1
    } else if main.iter().chain(challenges).any(|&word| word >= P) {
        2
    } else {
        0
    }
}

/// One for each.
pub type Tallies = [Tally; EXTENSIONS.len()];

/// With the kinds of calls that both are to meet, and then those that strict extension is.
pub fn tallies(strict: &[&'static str]) -> Tallies {
    let kinds: Vec<&str> = CHUNKS.iter().map(|chunk| chunk.0).chain(WORKS.iter().map(|work| work.0)).chain(ORDERS).collect();
    [Tally::of_kinds("extend", &kinds[..kinds.len() - 1]), Tally::of_kinds("extend strictly", &[&kinds, strict].concat())]
}

/// A call of the kind with this place among those of strict extension.
pub fn count_strict(tallies: &mut Tallies, kind: usize) {
    tallies[STRICT].count(CHUNKS.len() + WORKS.len() + ORDERS.len() + kind);
}

/// Counts a call that is to answer `number`, and `right` with work of the right length: by its chunk length, if it is done and no two
/// of those are the same, and by its work.
pub fn count(tally: &mut Tally, rows: usize, chunk: usize, work: usize, number: u32, right: u32) {
    if number == 0 && rows > 8 {
        CHUNKS.iter().enumerate().filter(|(_, of)| of.1(rows) == chunk).for_each(|(kind, _)| tally.count(kind));
    }
    let (works, orders) = (CHUNKS.len(), CHUNKS.len() + WORKS.len());
    if number == 5 && work % WORK_WIDTH != 0 {
        tally.count(orders);
    }
    if let (1, Some(behind)) = (number, [0, 2, 6, 11].iter().position(|&behind| behind == right)) {
        WORKS.iter().enumerate().filter(|(_, of)| of.1(rows, chunk) == work).for_each(|(kind, _)| tally.count(works + kind));
        tally.count(orders + 1 + behind);
    }
}

/// Each of its answers was expected, and each kind met; says both lines.
pub fn report(mut tallies: Tallies) -> bool {
    tallies[0].reached(&[0, 1, 2, 3, 5, 6]);
    tallies[STRICT].reached(&[0, 1, 2, 3, 5, 6, 11]);
    tallies.map(|tally| tally.report()) == [true; EXTENSIONS.len()]
}
