//! Check of columns made elsewhere.

use compare::checks::Verdict::{self, No, Refused, Yes};
use compare::checks::{change, check, count_other, place, refusal, tally, Place, CHECKS};
use compare::plain::check::broken;
use compare::plain::extension::{column::*, opcode, weight, Challenges, Kind, AUX_WIDTH, COLUMNS, WIDTH};
use compare::plain::{element_add, element_mul, element_sub, Element};
use compare::random::Random;
use compare::tally::{marks, Tally};
use tealbobbin::field::P;
use tealbobbin::processor::MAX_ROWS;

use crate::batches::{below, words};
use crate::cases::{table, Case, CLOCK, INSTRUCTION, RECORD, U32};

/// What is to be met beside the verdicts, by their places.
const KINDS: [&str; 3] = ["6 with a relation broken", "6 with none broken", "one relation alone broken"];
const BROKEN: usize = 0;
const EMPTIED: usize = 1;
const ALONE: usize = 2;

/// A case with its columns; without, where it is refused.
struct Columns {
    case: Case,
    cells: Option<Vec<u64>>,
}

struct Checking<'a> {
    tally: Tally,
    random: &'a mut Random,
}

/// Yes if these are the cells, or no where, row by row, the first one is another.
fn compared(offered: &[u64], cells: &[u64]) -> Verdict {
    offered.iter().zip(cells).position(|(a, b)| a != b).map_or(Yes, |word| No(place(word)))
}

impl Checking<'_> {
    fn columns(&mut self, case: Case) -> Columns {
        let refused = refusal(&case.main, &case.challenges, &vec![0; case.aux()]);
        let cells = if refused == 0 { case.cells(&mut self.tally, self.random) } else { None };
        Columns { case, cells }
    }

    /// Both calls; answers what was expected. The local relations agree with what extension writes.
    fn offer(&mut self, columns: &Columns, offered: &[u64]) -> Verdict {
        let Case { main, challenges } = &columns.case;
        let verdict = match (refusal(main, challenges, offered), &columns.cells) {
            (0, Some(cells)) => compared(offered, cells),
            (0, None) => Refused(6),
            (number, _) => Refused(number),
        };
        let by_relations = || broken(main, challenges, offered).first().map_or(Yes, |&first| No(first));
        match verdict {
            Refused(6) => count_other(&mut self.tally, if by_relations() == Yes { EMPTIED } else { BROKEN }),
            Yes | No(_) if verdict != by_relations() => {
                self.tally.differ(format!("{} rows: plain Rust's ways differ", columns.case.rows()));
            }
            _ => {}
        }
        check(&mut self.tally, main, challenges, offered, verdict);
        verdict
    }

    /// As above, where only one verdict can be meant.
    fn expect(&mut self, columns: &Columns, offered: &[u64], verdict: Verdict) {
        let meant = self.offer(columns, offered);
        if meant != verdict {
            self.tally.differ(format!("{} rows: a case for {verdict:?} is one for {meant:?}", columns.case.rows()));
        }
    }

    /// A verdict of another length, which comes first.
    fn other_verdicts(&mut self, case: &Case, offered: &[u64]) {
        for (name, check, right) in CHECKS {
            for length in (0..6).filter(|&length| length != right) {
                let mut verdict = marks(length);
                let got = check(&case.main, &case.challenges, offered, &mut verdict);
                self.tally.check(name, &[length as u64], &marks(length), (got, &verdict), 1, &[]);
            }
        }
    }
}

/// What a wrong cell's error becomes in the next row: a sum keeps it, and the rest multiply it as they do the cell.
fn carried(kind: &Kind, x: &Element, error: Element, prev: &[u64], row: &[u64], challenges: Challenges) -> Element {
    let times = |entries: Option<Vec<Element>>, factor: &dyn Fn(&Element) -> Element| {
        entries.unwrap_or_default().iter().fold(error, |error, entry| element_mul(&error, &factor(entry)))
    };
    match kind {
        Kind::Evaluation(entries) => times(entries(Some(prev), row, challenges), &|_| *x),
        Kind::Product(entries) => times(entries(Some(prev), row, challenges), &|entry| element_sub(x, entry)),
        Kind::Lookup(_) => error,
    }
}

/// The columns with one cell wrong and all later ones following from it.
fn gone_on(case: &Case, cells: &[u64], (row, column): Place, mut error: Element) -> Vec<u64> {
    let (challenges, (id, kind)) = (Challenges(&case.challenges), &COLUMNS[column]);
    let rows: Vec<&[u64]> = case.main.chunks_exact(WIDTH).collect();
    let mut offered = cells.to_vec();
    for r in row..rows.len() {
        if r > row {
            error = carried(kind, &challenges.element(*id), error, rows[r - 1], rows[r], challenges);
        }
        let cell = &mut offered[r * AUX_WIDTH + 3 * column..][..3];
        let wrong = element_add(&[cell[0], cell[1], cell[2]], &error);
        cell.copy_from_slice(&wrong);
    }
    offered
}

/// The right columns; every word changed, in row 0, one between and the last; every cell of these rows wrong, and the column going on
/// from it.
fn each_word(checking: &mut Checking, rows: usize) {
    let case = Case::sound(checking.random, rows);
    let columns = checking.columns(case);
    let cells = columns.cells.clone().expect("no denominator is zero");
    checking.expect(&columns, &cells, Yes);
    for row in [0, rows / 2, rows - 1] {
        for word in row * AUX_WIDTH..(row + 1) * AUX_WIDTH {
            let mut offered = cells.clone();
            change(checking.random, &mut offered, word);
            checking.expect(&columns, &offered, No(place(word)));
        }
        for column in 0..COLUMNS.len() {
            let error = [1 + checking.random.word() % (P - 1), checking.random.base(), checking.random.base()];
            let offered = gone_on(&columns.case, &cells, (row, column), error);
            checking.expect(&columns, &offered, No((row, column)));
            if broken(&columns.case.main, &columns.case.challenges, &offered) == [(row, column)] {
                count_other(&mut checking.tally, ALONE);
            } else {
                checking.tally.differ(format!("{rows} rows: more than the relation at {row}, {column} is broken"));
            }
        }
    }
}

/// Columns near the right ones, or near any where there are none, or with nothing of either.
fn any_columns(random: &mut Random, columns: &Columns) -> Vec<u64> {
    let length = columns.case.aux();
    let mut offered = columns.cells.clone().unwrap_or_else(|| words(random, length));
    match random.word() % 8 {
        0 => {}
        1 => offered.fill(0),
        2 => offered = words(random, length),
        3 => {
            let (a, b) = (below(random, columns.case.rows()), below(random, columns.case.rows()));
            (0..AUX_WIDTH).for_each(|word| offered.swap(a * AUX_WIDTH + word, b * AUX_WIDTH + word));
        }
        4 => {
            let from = below(random, length);
            offered[from..].fill_with(|| random.base());
        }
        _ => {
            for _ in 0..1 + below(random, 6) {
                let word = below(random, length);
                change(random, &mut offered, word);
            }
        }
    }
    offered
}

/// Any table, some with a denominator or a factor that is zero: its own columns, others, and those of a table or of challenges with
/// one word changed.
fn any(checking: &mut Checking) {
    let random = &mut *checking.random;
    let most = [4, 8, 16, 40][below(random, 4)];
    let rows = 1 + below(random, most);
    let mut case = Case::random(random, rows);
    let column = below(random, 22);
    if (INSTRUCTION..COLUMNS.len()).contains(&column) {
        case.aim_at_an_entry(random, column);
    }
    let columns = checking.columns(case);
    if let Some(cells) = &columns.cells {
        checking.expect(&columns, cells, Yes);
    }
    for _ in 0..4 {
        let offered = any_columns(checking.random, &columns);
        checking.offer(&columns, &offered);
    }
    let mut other = columns.case.clone();
    let changed = if checking.random.word() % 2 == 0 { &mut other.main } else { &mut other.challenges };
    let word = below(checking.random, changed.len());
    change(checking.random, changed, word);
    if let Some(offered) = checking.columns(other).cells {
        checking.offer(&columns, &offered);
    }
}

/// Each slice longer and shorter by a word and by a row, and empty, alone and with others.
fn lengths(checking: &mut Checking) {
    for rows in [0, 1, 2, 5] {
        let whole = Case::sound(checking.random, rows);
        let spare = table(checking.random, 2);
        for change in [-39, -33, -3, -1, 1, 3, 33, 39, i64::MIN] {
            let resized = |words: &[u64]| {
                let length = (words.len() as i64).saturating_add(change).max(0) as usize;
                [words, &spare].concat()[..length].to_vec()
            };
            for slices in 0..8 {
                let (mut case, mut offered) = (whole.clone(), words(checking.random, whole.aux()));
                if slices & 1 != 0 {
                    case.main = resized(&case.main);
                }
                if slices & 2 != 0 {
                    case.challenges = resized(&case.challenges);
                }
                if slices & 4 != 0 {
                    offered = resized(&offered);
                }
                checking.other_verdicts(&case, &offered);
                let columns = checking.columns(case);
                checking.offer(&columns, &offered);
            }
        }
    }
}

/// A word that is not below p in every place of a table, of the challenges and of the columns, these right or not.
fn bad_words(checking: &mut Checking) {
    let case = Case::sound(checking.random, 3);
    let columns = checking.columns(case);
    let cells = columns.cells.clone().expect("no denominator is zero");
    for bad in [P, P + 1, u64::MAX] {
        for place in 0..columns.case.main.len() + RECORD + cells.len() {
            let Case { mut main, mut challenges } = columns.case.clone();
            let mut offered = if place % 2 == 0 { cells.clone() } else { vec![0; cells.len()] };
            *main.iter_mut().chain(&mut challenges).chain(&mut offered).nth(place).unwrap() = bad;
            let columns = Columns { case: Case { main, challenges }, cells: None };
            checking.expect(&columns, &offered, Refused(2));
        }
    }
}

/// Each set of faults: the first of them in order is answered, and a no only without any.
fn several_faults(checking: &mut Checking) {
    for round in 0..3_200 {
        let [length, no_rows, bad, zero, wrong]: [bool; 5] = std::array::from_fn(|k| round >> k & 1 == 1);
        let mut case = Case::sound(checking.random, if no_rows { 0 } else { 1 + round % 5 });
        let cells = if no_rows { vec![] } else { checking.columns(case.clone()).cells.expect("no denominator is zero") };
        if zero && !no_rows {
            case.vanish();
        }
        let columns = checking.columns(case);
        let (mut case, mut offered) = (columns.case.clone(), cells);
        let random = &mut *checking.random;
        if wrong && !no_rows {
            let word = below(random, offered.len());
            change(random, &mut offered, word);
        }
        if bad {
            let slices = [&mut case.challenges, &mut case.main, &mut offered];
            let words = slices.into_iter().nth(if no_rows { 0 } else { below(random, 3) }).unwrap();
            let place = below(random, words.len());
            words[place] = P + random.word() % 3;
        }
        if length {
            match random.word() % 3 {
                0 => case.main.push(0),
                1 => drop(case.challenges.pop()),
                _ => offered.extend([0; AUX_WIDTH]),
            }
        }
        let faults = [(length, 1), (no_rows, 3), (bad, 2), (zero, 6)];
        let due = faults.into_iter().find(|fault| fault.0).map(|fault| Refused(fault.1));
        checking.other_verdicts(&case, &offered);
        let meant = checking.offer(&Columns { case, cells: columns.cells }, &offered);
        if due.map_or(matches!(meant, No(_)) != wrong, |due| meant != due) {
            checking.tally.differ(format!("faults {round:05b}: a case for {due:?} is one for {meant:?}"));
        }
    }
}

/// Every entry of a lookup column with denominator zero, whatever the columns hold; rows without an entry, whose denominator would be
/// zero, do no harm.
fn zero_denominators(checking: &mut Checking) {
    for round in 0..60 {
        let mut case = Case::sound(checking.random, 1 + round % 9);
        if round % 3 == 0 {
            case.main.chunks_exact_mut(WIDTH).for_each(|row| row[CI] = opcode::DIV_MOD);
        }
        let right = checking.columns(case.clone()).cells.expect("no denominator is zero");
        for column in [INSTRUCTION, U32, CLOCK] {
            for element in case.elements(column) {
                let mut case = case.clone();
                case.aim(column, element);
                let columns = checking.columns(case);
                for offered in [right.clone(), vec![0; right.len()], words(checking.random, right.len())] {
                    checking.expect(&columns, &offered, Refused(6));
                }
            }
        }
        for column in [CLOCK, INSTRUCTION] {
            for element in case.silent(column) {
                let mut case = case.clone();
                case.aim(column, element);
                let columns = checking.columns(case);
                let cells = columns.cells.clone().expect("no denominator is zero");
                checking.expect(&columns, &cells, Yes);
            }
        }
    }
}

/// Both denominators of a div_mod are zero, so that its step may be any: every relation holds, and it is refused.
fn emptied_relations(checking: &mut Checking) {
    for rows in 2..12 {
        let mut case = Case::sound(checking.random, rows);
        case.main.chunks_exact_mut(WIDTH).for_each(|row| row[CI] = opcode::DIV_MOD);
        case.challenges[3 * weight::U32..3 * (weight::U32 + 4)].fill(0);
        let mut offered = checking.columns(case.clone()).cells.expect("no denominator is zero");
        case.aim(U32, [0; 3]);
        let columns = checking.columns(case);
        checking.expect(&columns, &offered, Refused(6));
        for cells in offered.chunks_exact_mut(AUX_WIDTH).skip(1) {
            cells[3 * U32..3 * U32 + 3].fill_with(|| checking.random.base());
        }
        checking.expect(&columns, &offered, Refused(6));
    }
}

/// Tall tables, with words changed in every part of them.
fn tall(checking: &mut Checking) {
    for rows in [101, 1_000, 5_000, 20_000] {
        let case = Case::sound(checking.random, rows);
        let columns = checking.columns(case);
        let cells = columns.cells.clone().expect("no denominator is zero");
        checking.expect(&columns, &cells, Yes);
        for round in 0..20 {
            let (mut offered, word) = (cells.clone(), below(checking.random, cells.len()));
            change(checking.random, &mut offered, word);
            checking.expect(&columns, &offered, No(place(word)));
            if round % 2 == 0 {
                offered[word + 1..].fill(0);
                checking.expect(&columns, &offered, No(place(word)));
            }
        }
    }
}

/// The largest number of rows and one more, over zeros, with the last word of the table or of the columns not below p, a denominator
/// that is zero in the last row, or none of these.
fn long(checking: &mut Checking) {
    let [mut main, mut offered] = [WIDTH, AUX_WIDTH].map(|width| vec![0; (MAX_ROWS + 1) * width]);
    let challenges = [[2, 0, 0]; RECORD / 3].concat();
    for (rows, last_main, last_offered, last_ci, verdict) in [
        (MAX_ROWS + 1, P, P, 1, Refused(3)),
        (MAX_ROWS, P, 0, 1, Refused(2)),
        (MAX_ROWS, 0, P, 1, Refused(2)),
        (MAX_ROWS, 0, 0, 1, Refused(6)),
        (MAX_ROWS, 0, 0, 0, No((0, 0))),
    ] {
        let (main, offered) = (&mut main[..rows * WIDTH], &mut offered[..rows * AUX_WIDTH]);
        (main[rows * WIDTH - 1], offered[rows * AUX_WIDTH - 1], main[(rows - 1) * WIDTH + CI]) = (last_main, last_offered, last_ci);
        check(&mut checking.tally, main, &challenges, offered, verdict);
    }
}

/// `count` random tables, most of them low; every word changed in tables of many heights; tall tables; refusals of every kind.
pub fn compare(random: &mut Random, count: u64) -> bool {
    let mut checking = Checking { tally: tally(&KINDS), random };
    for rows in (1..=12).chain([30, 64]) {
        each_word(&mut checking, rows);
    }
    for _ in 0..count {
        any(&mut checking);
    }
    lengths(&mut checking);
    bad_words(&mut checking);
    several_faults(&mut checking);
    zero_denominators(&mut checking);
    emptied_relations(&mut checking);
    tall(&mut checking);
    long(&mut checking);
    checking.tally.reached(&[0, 1, 2, 3, 6]);
    checking.tally.report()
}
