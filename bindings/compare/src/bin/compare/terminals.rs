//! From a batch to the last row's cells, at every height.

use compare::builder::Builder;
use compare::plain::batch::{self, height, is_wrong_height, FORMS, UNKNOWN};
use compare::plain::batched::extend_batched;
use compare::plain::extension::column::*;
use compare::plain::extension::{opcode, Challenges, Kind, AUX_WIDTH, COLUMNS, WIDTH};
use compare::plain::terminals::Run;
use compare::plain::{decodes, Element};
use compare::random::Random;
use compare::rows::spoil;
use compare::tally::{marks, Tally, HEIGHTS};
use tealbobbin::abi;
use tealbobbin::batch::{MAX_BYTES, MAX_DIFFERENCES, MAX_IO_WORDS, MAX_LOG2_HEIGHT, MAX_TRACE_ROWS};
use tealbobbin::field::P;

use crate::batches::{below, damage_bytes, words};
use crate::cases::{challenges, row};

/// What else is to be met.
const WITHOUT: usize = HEIGHTS.len();
const KINDS: [&str; 7] = [
    "without 0B",
    "one trace row",
    "no padding row",
    "a last row undecodable",
    "row 1 in a list",
    "6 in padding alone",
    "4 before 6",
];

/// A run to be sent: trace, op stack, RAM, jump stack, sampled, digest, input and output; and its k, or 0 for none.
#[derive(Clone)]
struct Sent {
    words: [Vec<u64>; 8],
    k: u64,
}

struct Walking<'a> {
    tally: Tally,
    /// The opcodes that were last in a trace that padding follows, by their place among all.
    last: [bool; opcode::ALL.len()],
    random: &'a mut Random,
}

/// Differences below the rows, few of them.
fn differences(random: &mut Random, rows: usize) -> Vec<u64> {
    let most = [0, 1, 4, MAX_DIFFERENCES][below(random, 4)];
    (0..below(random, most + 1)).map(|_| random.word() % rows as u64).collect()
}

impl Sent {
    /// With these rows, the last of which has this instruction.
    fn new(random: &mut Random, rows: usize, k: u64, last: (u64, u64)) -> Sent {
        let flavour = random.word();
        let mut trace: Vec<u64> = (0..rows).flat_map(|index| row(random, flavour, index)).collect();
        let end = trace.len() - WIDTH;
        (trace[end + CI], trace[end + NIA]) = last;
        let [op_stack, ram, jump_stack] = [(); 3].map(|()| differences(random, rows));
        let [input, output] = [(); 2].map(|()| {
            let n = [0, 3, MAX_IO_WORDS][below(random, 3)];
            words(random, n)
        });
        let sampled = challenges(random)[..177].to_vec();
        Sent { words: [trace, op_stack, ram, jump_stack, sampled, words(random, 5), input, output], k }
    }

    /// The same without lists, and with words that are as good as distinct: no denominator vanishes by chance.
    fn distinct(random: &mut Random, rows: usize, k: u64, last: (u64, u64)) -> Sent {
        let mut sent = Sent::new(random, rows, k, last);
        for row in sent.words[0].chunks_exact_mut(WIDTH) {
            let kept = [row[CI], row[NIA]];
            row.fill_with(|| random.word() % P);
            ([row[CI], row[NIA]], row[IS_PADDING]) = (kept, 0);
        }
        sent.words[1..4].iter_mut().for_each(Vec::clear);
        sent.words[4].fill_with(|| random.word() % P);
        sent
    }

    fn rows(&self) -> usize {
        self.words[0].len() / WIDTH
    }

    fn last_row(&self) -> &[u64] {
        &self.words[0][(self.rows() - 1) * WIDTH..]
    }

    /// The indeterminate of a column becomes the element.
    fn aim(&mut self, column: usize, element: Element) {
        let id = COLUMNS[column].0;
        self.words[4][3 * id..3 * id + 3].copy_from_slice(&element);
    }

    /// The elements of the U32 entries that a padding row brings.
    fn padding_lookups(&self) -> Vec<Element> {
        let mut padding = self.last_row().to_vec();
        (padding[IS_PADDING], padding[MULTIPLICITY]) = (1, 0);
        let Kind::Lookup(entries) = COLUMNS[9].1 else { unreachable!("U32 is a lookup column") };
        // the derived challenges are no weights of it
        let record = [&self.words[4][..], &[0; 12]].concat();
        let brought = entries(Some(&padding), &padding, Challenges(&record)).unwrap_or_default();
        brought.into_iter().map(|(_, element)| element).collect()
    }

    fn bytes(&self, random: &mut Random) -> Vec<u8> {
        let slices = self.words.each_ref().map(Vec::as_slice);
        let mut bytes = vec![0; batch::length(&slices, self.k)];
        assert_eq!(batch::write(slices, FORMS[below(random, 2)], self.k, &mut bytes), 0);
        bytes
    }
}

/// An instruction and an argument that all take.
fn instruction(random: &mut Random, place: usize) -> (u64, u64) {
    (opcode::ALL[place % opcode::ALL.len()], random.word() % 5 + 1)
}

impl Walking<'_> {
    /// The number and the cells; answers the number that was expected. The ways of plain Rust agree, where there is room for them.
    fn check(&mut self, what: &str, bytes: &[u8]) -> u32 {
        let run = Run::open(bytes);
        let expected = run.as_ref().map_err(|&number| number).and_then(Run::by_rows);
        if let Ok(run) = &run {
            let by_table = run.height <= 1 << 18;
            if by_table && run.by_table() != expected || run.height <= 64 && run.by_entries() != expected {
                self.tally.differ(format!("{what}, {} of {} rows: plain Rust's ways differ", run.rows(), run.height));
            }
            self.count(run, expected.err());
        }
        let mut cells = marks(AUX_WIDTH);
        let got = abi::terminals(bytes, &mut cells);
        let shown: Vec<u64> = bytes.iter().map(|&byte| byte as u64).take(16).collect();
        let (number, words) = expected.map_or_else(|number| (number, vec![]), |cells| (0, cells.to_vec()));
        self.tally.check(what, &shown, &marks(AUX_WIDTH), (got, &cells), number, &words);
        number
    }

    fn expect(&mut self, what: &str, bytes: &[u8], number: u32) {
        let meant = self.check(what, bytes);
        if meant != number {
            self.tally.differ(format!("{what}: a case for {number} is one for {meant}"));
        }
    }

    fn count(&mut self, run: &Run, refusal: Option<u32>) {
        let (rows, last) = (run.rows(), &run.filled[(run.rows() - 1) * WIDTH..]);
        let padded = run.height > rows;
        if padded && decodes(last[CI], last[NIA]) {
            self.last[opcode::ALL.iter().position(|&code| code == last[CI]).unwrap()] = true;
        }
        let trace_extends = || extend_batched(&run.filled, &run.record, &mut vec![0; rows * AUX_WIDTH]);
        let met = [
            rows == 1,
            !padded,
            padded && !decodes(last[CI], last[NIA]),
            padded && rows > 1 && run.filled[WIDTH + MULTIPLICITY] > 0,
            refusal == Some(6) && trace_extends(),
        ];
        met.into_iter().enumerate().filter(|(_, met)| *met).for_each(|(kind, _)| self.tally.count(WITHOUT + 1 + kind));
    }

    /// A run that is sent; counted by its k.
    fn send(&mut self, what: &str, sent: &Sent) -> u32 {
        let place = HEIGHTS.iter().position(|&(k, _)| k == sent.k).unwrap_or(WITHOUT);
        self.tally.count(place);
        let bytes = sent.bytes(self.random);
        self.check(what, &bytes)
    }
}

/// A number of rows that 2^k hold, often one, and often all of them.
fn any_rows(random: &mut Random, k: u64) -> usize {
    let most = if k == 0 { MAX_TRACE_ROWS } else { MAX_TRACE_ROWS.min(1 << k) };
    match random.word() % 4 {
        0 => 1,
        1 => most,
        _ => 1 + below(random, most),
    }
}

/// One run, with the instruction of this place last, or one that does not decode.
fn any(walking: &mut Walking, k: u64, place: usize) {
    let random = &mut *walking.random;
    let rows = any_rows(random, k);
    let last = instruction(random, place);
    let mut sent = Sent::new(random, rows, k, last);
    let end = sent.words[0].len() - WIDTH;
    match random.word() % 8 {
        0 => spoil(random, &mut sent.words[0][end..]),
        1 => sent.words[0][end + IS_PADDING] = 1,
        _ => {}
    }
    walking.send("any", &sent);
}

/// Denominators that vanish where padding brings an entry, and where it would if it did. 4 comes before that.
fn zero_denominators(walking: &mut Walking, k: u64, place: usize) {
    let random = &mut *walking.random;
    let rows = any_rows(random, k);
    let padded = height(k, rows) > rows;
    let last = instruction(random, place);
    let sent = Sent::distinct(random, rows, k, last);
    for element in sent.padding_lookups() {
        let mut sent = sent.clone();
        sent.aim(9, element);
        let number = walking.send("U32 in padding", &sent);
        if padded != (number == 6) {
            walking.tally.differ(format!("k {k}, {rows} rows: a case for U32 in padding is one for {number}"));
        }
        sent.words[3] = vec![rows as u64];
        let bytes = sent.bytes(walking.random);
        walking.expect("4 before 6", &bytes, 4);
        walking.tally.count(WITHOUT + 6);
    }
    // row 1's clock, in the trace or in padding, which has an entry for the padding rows; and the next row's, which has none
    let clock = |index: usize| if index < rows { sent.words[0][index * WIDTH + CLK] } else { index as u64 };
    for (index, number) in [(1, if padded { 6 } else { 0 }), (2, 0)] {
        let mut sent = sent.clone();
        sent.aim(10, [clock(index), 0, 0]);
        let bytes = sent.bytes(walking.random);
        walking.expect("a row's clock", &bytes, number);
    }
}

/// Refusals of opening and of fill, and cells of another length, which comes first.
fn refusals(walking: &mut Walking, count: u64) {
    for round in 0..count as usize {
        let random = &mut *walking.random;
        let k = 1 + random.word() % 8;
        let rows = any_rows(random, k);
        let last = instruction(random, round);
        let mut sent = Sent::new(random, rows, k, last);
        let list = 1 + below(random, 3);
        sent.words[list] = vec![[rows as u64, rows as u64 + 1, 1 << k, 1 << 40][below(random, 4)]];
        let bytes = sent.bytes(random);
        walking.expect("a difference", &bytes, 4);
        let mut damaged = bytes;
        damage_bytes(walking.random, &mut damaged);
        if Run::open(&damaged).map_or(0, |run| run.height) <= 1 << 14 {
            walking.check("damaged", &damaged);
        }
        for length in [0, 1, AUX_WIDTH - 1, AUX_WIDTH + 1, 3 * AUX_WIDTH] {
            let mut cells = marks(length);
            let got = abi::terminals(&damaged, &mut cells);
            walking.tally.check("cells", &[length as u64], &marks(length), (got, &cells), 1, &[]);
        }
    }
    for (length, number) in [(0, 8), (MAX_BYTES, 9), (MAX_BYTES + 1, 1), (1 << 20, 1)] {
        walking.expect("zeros", &vec![0; length], number);
    }
    let begun = Builder::default().rows(1).clone();
    walking.expect("no rows", &Builder::default().rows(0).bytes(), 3);
    walking.expect("no command", &begun.clone().raw(&[UNKNOWN]).bytes(), 7);
    walking.expect("a late command", &begun.clone().input(0).digest(&[0; 5]).bytes(), 10);
    walking.expect("a bad word", &begun.clone().digest(&[P; 5]).bytes(), 2);
    for k in 0..=255 {
        let bytes = [1, 3, 0, 0, 0, 11, k];
        walking.expect("a height", &bytes, if is_wrong_height(k.into(), 3) { 12 } else { 8 });
    }
}

/// `count` times every height up to 2^14, the lower ones often, and none; some at 2^16 and 2^18; two at 2^22, one of them with as many
/// trace rows as there may be. Refusals of every kind.
pub fn compare(random: &mut Random, count: u64) -> bool {
    let heights = HEIGHTS.map(|(_, name)| name);
    let kinds: Vec<&'static str> = heights.into_iter().chain(KINDS).collect();
    let mut walking = Walking { tally: Tally::of_kinds("terminals", &kinds), last: [false; opcode::ALL.len()], random };
    let mut place = 0;
    for _ in 0..count {
        for k in 0..=14 {
            for _ in 0..if k < 8 { 12 } else { 1 } {
                any(&mut walking, k, place);
                place += 1;
            }
            zero_denominators(&mut walking, k, place);
        }
    }
    for round in 0..8 {
        any(&mut walking, if round < 6 { 16 } else { 18 }, place + 7 * round);
    }
    for rows in [1, MAX_TRACE_ROWS] {
        let last = if rows == 1 { (0, 0) } else { (opcode::MERKLE_STEP_MEM, 0) };
        let sent = Sent::new(walking.random, rows, MAX_LOG2_HEIGHT.into(), last);
        walking.send("highest", &sent);
    }
    refusals(&mut walking, 20 * count);
    for (code, met) in opcode::ALL.into_iter().zip(walking.last) {
        if !met {
            walking.tally.differ(format!("no case for opcode {code} last"));
        }
    }
    walking.tally.reached(&[0, 1, 2, 3, 4, 6, 7, 8, 9, 10, 12]);
    walking.tally.report()
}
