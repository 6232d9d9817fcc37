//! Main tables and challenges, to extend and to check.

use compare::plain::batched::extend_batched;
use compare::plain::extension::{by_row, column::*, extend_plain, opcode, Challenges, Kind, AUX_WIDTH, COLUMNS, WIDTH};
use compare::plain::{self, Element};
use compare::random::Random;
use compare::rows::{mend, spoil};
use compare::tally::Tally;
use tealbobbin::field::P;

pub const RECORD: usize = tealbobbin::challenges::Challenges::WORDS;
pub const INSTRUCTION: usize = 2;
pub const U32: usize = 9;
pub const CLOCK: usize = 10;

/// A main table and challenges.
#[derive(Clone)]
pub struct Case {
    pub main: Vec<u64>,
    pub challenges: Vec<u64>,
}

pub fn any_words(random: &mut Random, n: usize) -> Vec<u64> {
    (0..n).map(|_| random.any()).collect()
}

/// One of the four: anything below p, small, at an edge, or a mixture.
fn word(random: &mut Random, flavour: u64) -> u64 {
    match flavour % 4 {
        0 => random.base(),
        1 => random.word() % 8,
        2 => random.edge() % P,
        _ => {
            let flavour = random.word() % 3;
            word(random, flavour)
        }
    }
}

/// All opcodes, as they are and out of range; arguments in and out of range; padding marked with 1 and with other words.
pub fn row(random: &mut Random, flavour: u64, index: usize) -> Vec<u64> {
    let mut row: Vec<u64> = (0..WIDTH).map(|_| word(random, flavour)).collect();
    let code = opcode::ALL[random.word() as usize % opcode::ALL.len()];
    row[CI] = match random.word() % 24 {
        0 => code + (1 << 8),
        1 => code + (1 << 32),
        2 => random.word() % 100,
        3 => row[CI],
        _ => code,
    };
    row[NIA] = match random.word() % 12 {
        0 => (1 << 32) + random.word() % 8,
        1 => row[NIA],
        2 | 3 => random.word() % 20,
        _ => random.word() % 5 + 1,
    };
    row[IS_PADDING] = match random.word() % 8 {
        0 => 1,
        1 => 2,
        2 => row[IS_PADDING],
        _ => 0,
    };
    if random.word() % 2 == 0 {
        row[CLK] = index as u64;
    }
    if random.word() % 2 == 0 {
        row[MULTIPLICITY] = 0;
    }
    row
}

/// Makes row 0, the last row, one row or all padding rows undecodable.
pub fn spoil_some(random: &mut Random, main: &mut [u64]) {
    let (rows, which, one) = (main.len() / WIDTH, random.word() % 4, random.word() as usize);
    for (r, row) in main.chunks_exact_mut(WIDTH).enumerate() {
        if [r == 0, r == rows - 1, r == one % rows, row[IS_PADDING] == 1][which as usize] {
            spoil(random, row);
        }
    }
}

/// Rows of one flavour, some of them repeated; the last ones may be padding. Of two tables one decodes throughout, of four one does
/// but for some rows.
pub fn table(random: &mut Random, rows: usize) -> Vec<u64> {
    let (flavour, repeating) = (random.word(), random.word() % 4 == 0);
    let mut main: Vec<u64> = vec![];
    for index in 0..rows {
        let next = match main.len().checked_sub(WIDTH) {
            Some(last) if repeating && random.word() % 2 == 0 => main[last..].to_vec(),
            _ => row(random, flavour, index),
        };
        main.extend(next);
    }
    if rows >= 2 && random.word() % 3 == 0 {
        plain::pad(&mut main, random.word() as usize % rows + 1);
    }
    let decodability = random.word() % 4;
    if decodability < 3 {
        mend(random, &mut main);
    }
    if decodability == 2 {
        spoil_some(random, &mut main);
    }
    main
}

/// Mostly words below p; sometimes small elements, so that entries coincide and denominators vanish.
pub fn challenges(random: &mut Random) -> Vec<u64> {
    let flavour = random.word() % 8;
    (0..RECORD).map(|k| if flavour < 2 && k % 3 > 0 { 0 } else { word(random, if flavour < 3 { flavour } else { 0 }) }).collect()
}

impl Case {
    pub fn random(random: &mut Random, rows: usize) -> Case {
        Case { main: table(random, rows), challenges: challenges(random) }
    }

    /// A table that no refusal of ordinary extension covers, but for one chance in 2^100.
    pub fn sound(random: &mut Random, rows: usize) -> Case {
        let challenges = (0..RECORD).map(|_| random.word() % P).collect();
        Case { challenges, main: table(random, rows) }
    }

    pub fn rows(&self) -> usize {
        self.main.len() / WIDTH
    }

    /// The words of its columns.
    pub fn aux(&self) -> usize {
        self.rows() * AUX_WIDTH
    }

    /// The elements of a column's entries.
    pub fn elements(&self, column: usize) -> Vec<Element> {
        let challenges = Challenges(&self.challenges);
        match COLUMNS[column].1 {
            Kind::Evaluation(entries) | Kind::Product(entries) => by_row(entries, &self.main, challenges).concat(),
            Kind::Lookup(entries) => by_row(entries, &self.main, challenges).concat().iter().map(|fraction| fraction.1).collect(),
        }
    }

    /// What rows without an entry would enter into the instruction or clock column if they did, unless another row does.
    pub fn silent(&self, column: usize) -> Vec<Element> {
        let (mut speaking, entered) = (self.clone(), self.elements(column));
        speaking.main.chunks_exact_mut(WIDTH).for_each(|row| (row[IS_PADDING], row[MULTIPLICITY]) = (0, 1));
        speaking.elements(column).into_iter().filter(|element| !entered.contains(element)).collect()
    }

    /// Makes the column's indeterminate the element.
    pub fn aim(&mut self, column: usize, element: Element) {
        let id = COLUMNS[column].0;
        self.challenges[3 * id..3 * id + 3].copy_from_slice(&element);
    }

    /// Makes the indeterminate of a lookup or product column the element of one of its entries, if it has one.
    pub fn aim_at_an_entry(&mut self, random: &mut Random, column: usize) {
        let elements = self.elements(column);
        if !elements.is_empty() {
            self.aim(column, elements[random.word() as usize % elements.len()]);
        }
    }

    /// Makes the denominator of row 0's clock zero.
    pub fn vanish(&mut self) {
        (self.main[CLK], self.main[MULTIPLICITY]) = (7, 1);
        self.aim(CLOCK, [7, 0, 0]);
    }

    /// The cells, if there are any: plainly and batched, or only batched where the table is tall.
    pub fn cells(&self, tally: &mut Tally, random: &mut Random) -> Option<Vec<u64>> {
        let mut aux = any_words(random, self.aux());
        let before = aux.clone();
        let batched = extend_batched(&self.main, &self.challenges, &mut aux);
        if self.rows() > 100 {
            return batched.then_some(aux);
        }
        let cells = extend_plain(&self.main, &self.challenges);
        if batched != cells.is_some() || aux != *cells.as_ref().unwrap_or(&before) {
            tally.differ(format!("extend_batched, {} rows: not the plain cells", self.rows()));
        }
        cells
    }
}
