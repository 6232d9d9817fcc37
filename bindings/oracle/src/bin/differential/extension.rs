//! Extension, with the original's panics as refusals; and strict extension on the same calls.

use compare::extensions::{CHUNKS, EXTENSIONS, STRICT, Tallies, WORKS};
use compare::extensions::{any_chunk, count, count_strict, other_work, refusal, report, tallies};
use compare::plain::extension::COLUMNS;
use compare::plain::extension::column::{CI, NIA};
use compare::random::Random;
use oracle::MAIN_WIDTH as WIDTH;
use oracle::rows::{ARGUMENTS, OPCODES, OTHERS, REALISTIC, WORST, any_row, any_table, challenges, mixed, row, symbols};
use tealbobbin::field::P;
use tealbobbin::processor::work_len;

struct Case<'a> {
    main: &'a [u64],
    challenges: &'a [u64],
    chunk: usize,
    aux: usize,
    work: usize,
}

fn case<'a>(main: &'a [u64], challenges: &'a [u64], chunk: usize, aux: usize, work: usize) -> Case<'a> {
    Case { main, challenges, chunk, aux, work }
}

impl Case<'_> {
    fn check(&self, tallies: &mut Tallies, random: &mut Random) {
        let rows = self.main.len() / WIDTH;
        let refused = |work| refusal(self.main, self.challenges, self.chunk, self.aux, work);
        // the answers with work of the right length
        let (mut right, mut expected) = ([refused(work_len(rows, self.chunk)); 2], vec![]);
        if right == [0; 2] {
            match oracle::extend(self.main, self.challenges) {
                Ok(aux) => expected = [aux, vec![0; self.work]].concat(),
                Err(_) => right = [6; 2],
            }
            if !self.main.chunks_exact(WIDTH).all(|row| oracle::decode(row[CI], row[NIA])[0] == 1) {
                right[STRICT] = 11;
            }
        }
        let numbers = if refused(self.work) == 0 { right } else { [refused(self.work); 2] };
        if numbers[STRICT] == 11 {
            count_strict(tallies, if numbers[0] == 0 { 0 } else { 1 });
        }
        for (k, (tally, (name, extend))) in tallies.iter_mut().zip(EXTENSIONS).enumerate() {
            let number = numbers[k];
            count(tally, rows, self.chunk, self.work, number, right[k]);
            let before: Vec<u64> = (0..self.aux + self.work).map(|_| random.any()).collect();
            let mut after = before.clone();
            let (aux, work) = after.split_at_mut(self.aux);
            let got = extend(self.main, self.challenges, self.chunk, aux, work);
            tally.check(name, &[self.main.len() as u64, self.chunk as u64], &before, (got, &after), number, &expected);
            if number == 0 {
                tally.rows += rows as u64;
            }
        }
    }
}

fn check(tallies: &mut Tallies, random: &mut Random, main: &[u64], challenges: &[u64]) {
    let rows = main.len() / WIDTH;
    let chunk = any_chunk(random, rows);
    let work = other_work(random, rows, chunk).unwrap_or(work_len(rows, chunk));
    case(main, challenges, chunk, 33 * rows, work).check(tallies, random);
}

fn any_check(tallies: &mut Tallies, random: &mut Random, main: &[u64]) {
    let challenges = challenges(random);
    check(tallies, random, main, &challenges);
}

/// Each instruction and each word that is none, with arguments of each class, under each mark of padding before and after.
fn windows(tallies: &mut Tallies, random: &mut Random) {
    for ci in OPCODES.into_iter().chain(OTHERS) {
        for nia in ARGUMENTS {
            for [previous, current] in [0, 1, 2].map(|a| [0, 1, P - 1].map(|b| [a, b])).concat() {
                let after = any_row(random);
                let main = [row(random, ci, nia, previous), row(random, after[3], after[4], current)].concat();
                any_check(tallies, random, &main);
            }
        }
    }
}

/// Each instruction after each.
fn pairs(tallies: &mut Tallies, random: &mut Random) {
    for first in OPCODES {
        for second in OPCODES {
            let rows: [Vec<u64>; 3] = [first, second, first].map(|ci| {
                let nia = random.word() % 5 + 1;
                row(random, ci, nia, 0)
            });
            any_check(tallies, random, &rows.concat());
        }
    }
}

/// A table, and challenges with a column's indeterminate set to one of its entries: a zero denominator or a factor 0. Or to what a row
/// that is silent would enter into the instruction or clock column. Nothing if the row drawn has no entry.
pub fn aimed(random: &mut Random) -> Option<(Vec<u64>, Vec<u64>)> {
    let rows = random.word() as usize % 20 + 1;
    let mut main = any_table(random, rows);
    let mut challenges = challenges(random);
    let column = random.word() as usize % 11;
    let at = random.word() as usize % rows;
    let silent = random.word() % 4 == 0;
    let mut speaking = main[at * WIDTH..(at + 1) * WIDTH].to_vec();
    if silent {
        (speaking[1], speaking[38]) = (0, 1);
        (main[at * WIDTH + 1], main[at * WIDTH + 38]) = (1, 0);
    }
    let previous = (at > 0).then(|| &main[(at - 1) * WIDTH..at * WIDTH]);
    let found = symbols(column, previous, &speaking, &challenges);
    if found.is_empty() {
        return None;
    }
    let element = found[random.word() as usize % found.len()];
    challenges[3 * COLUMNS[column].0..][..3].copy_from_slice(&element);
    Some((main, challenges))
}

/// One table at every chunk length, with the right length of work and with wrong ones.
fn chunks(tallies: &mut Tallies, random: &mut Random, rows: usize) {
    let (main, challenges) = (any_table(random, rows), challenges(random));
    for chunk in CHUNKS.map(|(_, chunk)| chunk(rows)) {
        case(&main, &challenges, chunk, 33 * rows, work_len(rows, chunk)).check(tallies, random);
        for (_, work) in WORKS {
            case(&main, &challenges, chunk, 33 * rows, work(rows, chunk)).check(tallies, random);
        }
    }
}

/// Lengths of slices, heights, chunk lengths and words that are refused.
fn refusals(tallies: &mut Tallies, random: &mut Random) {
    let challenges = challenges(random);
    let main = any_table(random, 3);
    for words in 0..4 * WIDTH {
        let main = any_table(random, 4);
        case(&main[..words], &challenges, 1, 33 * (words / WIDTH), 6 * (words / WIDTH)).check(tallies, random);
    }
    for length in 180..200 {
        let challenges: Vec<u64> = (0..length).map(|_| random.base()).collect();
        case(&main, &challenges, 1, 99, 18).check(tallies, random);
    }
    for aux in (0..110).chain([132, 198]) {
        case(&main, &challenges, 1, aux, 18).check(tallies, random);
    }
    for work in (0..25).chain([36]) {
        for chunk in [0, 1, 2, 3, usize::MAX] {
            case(&main, &challenges, chunk, 99, work).check(tallies, random);
        }
    }
    case(&[], &challenges, 0, 0, 0).check(tallies, random);
    for bad in [P, u64::MAX] {
        for place in 0..main.len() {
            let mut main = main.clone();
            main[place] = bad;
            case(&main, &challenges, place % 2, 99, 18).check(tallies, random);
            case(&main, &challenges, 2, 99, 6 * (place % 4)).check(tallies, random);
        }
        for place in 0..189 {
            let mut challenges = challenges.clone();
            challenges[place] = bad;
            case(&main, &challenges, place % 2, 99, 18).check(tallies, random);
            case(&main, &challenges, 2, 99, 6 * (place % 4)).check(tallies, random);
        }
    }
}

/// Windows of every kind, tables of 1 to 256 rows, tall ones around the original's own chunks and up to 2^16, all chunk lengths on
/// one table, zero denominators and refusals.
pub fn compare(random: &mut Random, count: u64, rows_compared: &mut u64) -> bool {
    let mut tallies = tallies(&["11 where the original extends", "11 where it panics"]);
    if oracle::extend(&[], &challenges(random)).is_ok() {
        tallies[0].differ("the original extends a table without rows".to_string());
    }
    for _ in 0..count.div_ceil(1_000) {
        windows(&mut tallies, random);
        pairs(&mut tallies, random);
        refusals(&mut tallies, random);
        for most in [8, 64, 512] {
            let rows = random.word() as usize % most + 1;
            chunks(&mut tallies, random, rows);
        }
        let rows = random.word() as usize % (1 << 16) + 1;
        let main = any_table(random, rows);
        any_check(&mut tallies, random, &main);
    }
    for i in 0..count {
        let main = any_table(random, i as usize % 256 + 1);
        any_check(&mut tallies, random, &main);
        for _ in 0..10 {
            if let Some((main, challenges)) = aimed(random) {
                check(&mut tallies, random, &main, &challenges);
            }
        }
    }
    for rows in [1023, 1024, 1025, 4095, 4096, 4097, 5000, 16_384, 65_536] {
        let main = any_table(random, rows);
        any_check(&mut tallies, random, &main);
        for mix in [REALISTIC, WORST] {
            let main = mixed(random, mix, rows, rows / 4, 3);
            any_check(&mut tallies, random, &main);
        }
    }
    *rows_compared += tallies[0].rows;
    report(tallies)
}
