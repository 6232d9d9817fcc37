//! Extension, and strict extension on the same calls.

use compare::extensions::{any_chunk, count, count_strict, other_work, refusal, report, tallies};
use compare::extensions::{Tallies, CHUNKS, EXTENSIONS, STRICT, WORKS};
use compare::plain::extension::{column::*, opcode, undecodable, AUX_WIDTH, COLUMNS, WIDTH};
use compare::random::Random;
use compare::rows::{mend, spoil};
use tealbobbin::field::P;
use tealbobbin::processor::{work_len, MAX_ROWS, WORK_WIDTH};

use crate::cases::{any_words, spoil_some, table, Case, CLOCK, INSTRUCTION, RECORD, U32};

/// What strict extension is to meet: where the rows are that do not decode, and other faults beside them.
const KINDS: [&str; 6] =
    ["row 0 alone undecodable", "the last row alone", "padding alone", "2 before 11", "11 before 6", "2 before 11 and 6"];

impl Case {
    /// Every number and every lent slice, at each chunk length; answers the last numbers that were expected.
    fn check(&self, tallies: &mut Tallies, random: &mut Random, chunks: &[usize]) -> [u32; 2] {
        self.check_lent(tallies, random, chunks, self.aux(), None)
    }

    /// The same with slices of these lengths for columns and work, of that only where it is not to be the right one.
    fn check_lent(&self, tallies: &mut Tallies, random: &mut Random, chunks: &[usize], aux: usize, work: Option<usize>) -> [u32; 2] {
        let rows = self.rows();
        let refused = |chunk, work| refusal(&self.main, &self.challenges, chunk, aux, work);
        let undecodable = undecodable(&self.main);
        let cells = if refused(1, work_len(rows, 1)) == 0 { self.cells(&mut tallies[0], random) } else { None };
        let mut numbers = [0; 2];
        for &chunk in chunks {
            let answers = |work| {
                [false, true].map(|strict| match refused(chunk, work) {
                    0 if strict && !undecodable.is_empty() => 11,
                    0 if cells.is_none() => 6,
                    number => number,
                })
            };
            let right = work_len(rows, chunk);
            let length = work.unwrap_or(right);
            numbers = answers(length);
            if numbers[STRICT] == 11 {
                self.count_places(tallies, &undecodable);
            }
            for (k, (name, extend)) in EXTENSIONS.into_iter().enumerate() {
                count(&mut tallies[k], rows, chunk, length, numbers[k], answers(right)[k]);
                let (mut columns, mut work) = (any_words(random, aux), any_words(random, length));
                let lent = |columns: &[u64], work: &[u64]| [columns, work, &self.main, &self.challenges].concat();
                let before = lent(&columns, &work);
                let expected = cells.as_ref().map_or(vec![], |cells| lent(cells, &vec![0; length]));
                let got = extend(&self.main, &self.challenges, chunk, &mut columns, &mut work);
                let shape = [self.main.len(), self.challenges.len(), chunk, aux, length].map(|n| n as u64);
                tallies[k].check(name, &shape, &before, (got, &lent(&columns, &work)), numbers[k], &expected);
            }
        }
        numbers
    }

    /// Counts the kinds of a table by the rows of it that do not decode.
    fn count_places(&self, tallies: &mut Tallies, undecodable: &[usize]) {
        let rows = self.rows();
        let padding = undecodable.iter().all(|r| self.main[r * WIDTH + IS_PADDING] == 1);
        for (kind, met) in [undecodable == [0] && rows > 1, undecodable == [rows - 1] && rows > 1, padding].into_iter().enumerate() {
            if met {
                count_strict(tallies, kind);
            }
        }
    }

    /// As above, where ordinary extension can mean only one number.
    fn expect(&self, tallies: &mut Tallies, random: &mut Random, chunk: usize, number: u32) {
        let [meant, _] = self.check(tallies, random, &[chunk]);
        if meant != number {
            tallies[0].differ(format!("extend, {} rows: a case for {number} is one for {meant}", self.rows()));
        }
    }
}

/// Each slice longer and shorter by a word and by a row, empty, and of the length for a row or chunk more or less.
fn lengths(tallies: &mut Tallies, random: &mut Random) {
    for rows in [0, 1, 2, 5] {
        let whole = Case::sound(random, rows);
        let spare = table(random, 2);
        for change in [-39, -33, -6, -3, -2, -1, 1, 2, 3, 6, 33, 39, 78, i64::MIN] {
            let changed = |length: usize| (length as i64).saturating_add(change).max(0) as usize;
            for slices in 1..16 {
                let (mut case, mut aux, mut work) = (whole.clone(), whole.aux(), None);
                if slices & 1 != 0 {
                    case.main.extend(&spare);
                    case.main.truncate(changed(whole.main.len()));
                }
                if slices & 2 != 0 {
                    case.challenges.extend(&spare);
                    case.challenges.truncate(changed(RECORD));
                }
                if slices & 4 != 0 {
                    aux = changed(aux);
                }
                if slices & 8 != 0 {
                    work = Some(changed(work_len(rows, 2)));
                }
                case.check_lent(tallies, random, &[2, 0], aux, work);
            }
        }
    }
}

/// Every chunk length with the right length of work and with wrong ones, over tables that are extended and that are refused later.
fn works(tallies: &mut Tallies, random: &mut Random) {
    for rows in (1..=12).chain([50, 300]) {
        let mut sound = Case::sound(random, rows);
        mend(random, &mut sound.main);
        let [mut bad, mut spoiled, mut zero] = [(); 3].map(|()| sound.clone());
        bad.main[random.word() as usize % (rows * WIDTH)] = P + random.word() % 3;
        spoil_some(random, &mut spoiled.main);
        zero.vanish();
        for case in [sound, bad, spoiled, zero] {
            case.check(tallies, random, &CHUNKS.map(|(_, chunk)| chunk(rows)));
            for (_, chunk) in CHUNKS {
                let chunk = chunk(rows);
                for (_, work) in WORKS {
                    case.check_lent(tallies, random, &[chunk, 0], case.aux(), Some(work(rows, chunk)));
                }
            }
        }
    }
}

/// A word that is not below p in every place of a table and of the challenges.
fn bad_words(tallies: &mut Tallies, random: &mut Random) {
    let whole = Case::sound(random, 3);
    for bad in [P, P + 1, u64::MAX] {
        for place in 0..3 * WIDTH {
            let mut case = whole.clone();
            case.main[place] = bad;
            case.expect(tallies, random, 1 + place % 4, 2);
        }
        for place in 0..RECORD {
            let mut case = whole.clone();
            case.challenges[place] = bad;
            case.expect(tallies, random, 1 + place % 4, 2);
        }
    }
}

/// Each set of faults: the first of them in order is answered.
fn several_faults(tallies: &mut Tallies, random: &mut Random) {
    for round in 0..12_800 {
        let [length, no_rows, no_chunk, work, bad, spoiled, zero]: [bool; 7] = std::array::from_fn(|k| round >> k & 1 == 1);
        let mut case = Case::sound(random, if no_rows { 0 } else { 1 + round % 5 });
        mend(random, &mut case.main);
        if spoiled && !no_rows {
            let row = random.word() as usize % case.rows();
            spoil(random, &mut case.main[row * WIDTH..][..WIDTH]);
        }
        if zero && !no_rows {
            case.vanish();
        }
        if bad {
            let words = if no_rows || random.word() % 2 == 0 { &mut case.challenges } else { &mut case.main };
            let place = random.word() as usize % words.len();
            words[place] = P + random.word() % 3;
        }
        let chunk = if no_chunk { 0 } else { 1 + random.word() as usize % 7 };
        let wrong_work = work.then(|| work_len(case.rows(), chunk) + 1 + random.word() as usize % 12);
        let mut aux = case.aux();
        if length {
            match random.word() % 3 {
                0 => case.main.push(0),
                1 => drop(case.challenges.pop()),
                _ => aux += AUX_WIDTH,
            }
        }
        let first = |strict: bool| {
            let faults = [(length, 1), (no_rows, 3), (no_chunk, 5), (work, 1), (bad, 2), (spoiled && strict, 11), (zero, 6)];
            faults.into_iter().find(|fault| fault.0).map_or(0, |fault| fault.1)
        };
        let meant = case.check_lent(tallies, random, &[chunk], aux, wrong_work);
        let due = [first(false), first(true)];
        if meant != due {
            tallies[STRICT].differ(format!("extend, {} rows: a case for {due:?} is one for {meant:?}", case.rows()));
        }
        if spoiled && !(length || no_rows || no_chunk || work) && (bad || zero) {
            count_strict(tallies, 2 + bad as usize + 2 * zero as usize);
        }
    }
}

/// Every entry of a lookup column with denominator zero; rows without an entry, whose denominator would be zero.
fn zero_denominators(tallies: &mut Tallies, random: &mut Random) {
    for round in 0..150 {
        let mut case = Case::sound(random, 1 + round % 9);
        for row in case.main.chunks_exact_mut(WIDTH) {
            if round % 3 == 0 {
                row[CI] = opcode::DIV_MOD;
            }
            if round % 4 == 0 {
                row[CLK] = random.word() % P;
            }
        }
        for column in [INSTRUCTION, U32, CLOCK] {
            for element in case.elements(column) {
                let mut case = case.clone();
                case.aim(column, element);
                case.expect(tallies, random, 1 + round % 11, 6);
            }
        }
        for column in [CLOCK, INSTRUCTION] {
            for element in case.silent(column) {
                let mut case = case.clone();
                case.aim(column, element);
                case.expect(tallies, random, 1 + round % 11, 0);
            }
        }
    }
}

/// The largest number of rows and one more, over zeros that are to stay zeros, with CI of the last row not below p or no opcode, and
/// this many words of work.
fn long(tallies: &mut Tallies) {
    let [mut main, mut aux, mut work] = [WIDTH, AUX_WIDTH, WORK_WIDTH].map(|width| vec![0; (MAX_ROWS + 1) * width]);
    for (rows, chunk, words, ci, number) in [
        (MAX_ROWS, 0, 0, 0, 5),
        (MAX_ROWS, 1, 6 * MAX_ROWS, P, 2),
        (MAX_ROWS, 4096, 6 * 1024, P, 2),
        (MAX_ROWS, 4096, 6 * MAX_ROWS, P, 1),
        (MAX_ROWS, 4095, 6 * 1025, P, 2),
        (MAX_ROWS, 4095, 6 * 1024, P, 1),
        (MAX_ROWS, usize::MAX, 6, P, 2),
        (MAX_ROWS, usize::MAX, 0, P, 1),
        (MAX_ROWS + 1, 4096, 6 * 1025, 0, 3),
        (MAX_ROWS + 1, 0, 0, P, 3),
        (MAX_ROWS, 4096, 6 * 1024, 5, 11),
    ] {
        let (main, aux, work) = (&mut main[..rows * WIDTH], &mut aux[..rows * AUX_WIDTH], &mut work[..words]);
        main[(rows - 1) * WIDTH + CI] = ci;
        for (k, (name, extend)) in EXTENSIONS.into_iter().enumerate().skip(if number == 11 { STRICT } else { 0 }) {
            let got = extend(main, &[2; RECORD], chunk, aux, work);
            let written = aux.iter().chain(&*work).filter(|&&w| w != 0).count() as u64;
            tallies[k].check(name, &[rows as u64, chunk as u64], &[0], (got, &[written]), number, &[0]);
        }
        main[(rows - 1) * WIDTH + CI] = 0;
    }
}

/// Every height up to 64 with every chunk length up to two more; `count` random tables, most of them low; taller ones, which decode
/// throughout, then but for the last row; refusals.
pub fn compare(random: &mut Random, count: u64) -> bool {
    let mut tallies = tallies(&KINDS);
    for rows in 1..=64 {
        for chunk in (1..=rows + 2).step_by(2) {
            Case::sound(random, rows).check(&mut tallies, random, &[chunk, chunk + 1]);
        }
        Case::random(random, rows).check(&mut tallies, random, &[0, usize::MAX / 2, usize::MAX]);
    }
    for _ in 0..count {
        let most = [4, 8, 16, 64][random.word() as usize % 4];
        let rows = 1 + random.word() as usize % most;
        let mut case = Case::random(random, rows);
        let column = random.word() as usize % 44;
        if (INSTRUCTION..COLUMNS.len()).contains(&column) {
            case.aim_at_an_entry(random, column);
        }
        let chunks = [(); 2].map(|()| any_chunk(random, rows));
        let work = other_work(random, rows, chunks[0]);
        case.check_lent(&mut tallies, random, &chunks, case.aux(), work);
    }
    for (rows, chunk) in [(1_000, 1), (1_000, 999), (5_000, 1_024), (20_000, 4_096), (20_000, usize::MAX)] {
        let mut case = Case::sound(random, rows);
        mend(random, &mut case.main);
        case.check(&mut tallies, random, &[chunk]);
        spoil(random, &mut case.main[(rows - 1) * WIDTH..]);
        case.check(&mut tallies, random, &[chunk]);
    }
    lengths(&mut tallies, random);
    works(&mut tallies, random);
    bad_words(&mut tallies, random);
    several_faults(&mut tallies, random);
    zero_denominators(&mut tallies, random);
    long(&mut tallies);
    report(tallies)
}
