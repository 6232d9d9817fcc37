//! Opening, and writing what was opened.

use compare::builder::Builder;
use compare::plain::batch::{self, is_wrong_height, other, rank, row_command, Rows, FORMS, LENGTHS, UNKNOWN};
use compare::plain::to_montgomery;
use compare::random::{Random, EDGES};
use compare::tally::Tally;
use tealbobbin::abi;
use tealbobbin::batch::{Form, MAX_BYTES, MAX_DIFFERENCES, MAX_IO_WORDS, MAX_LOG2_HEIGHT};
use tealbobbin::field::P;
use tealbobbin::processor::MAIN_WIDTH;

/// The commands with a word for their operand, and how many of each there may be.
const LISTS: [(u8, usize); 5] =
    [(3, MAX_DIFFERENCES), (4, MAX_DIFFERENCES), (5, MAX_DIFFERENCES), (8, MAX_IO_WORDS), (9, MAX_IO_WORDS)];

/// The form of a batch's rows, and whether it sets a height.
#[derive(Clone, Copy)]
struct Made {
    form: Form,
    high: bool,
}

const MADE: [Made; 4] = [
    Made { form: Form::Plain, high: false },
    Made { form: Form::Plain, high: true },
    Made { form: Form::Montgomery, high: false },
    Made { form: Form::Montgomery, high: true },
];

/// What a batch that opens may be.
const KINDS: [&str; 2] = ["opened without 0B", "opened with 0B"];

/// The nine slices in one row of words, each followed by a word that is lent to nobody.
struct Opening<'a> {
    /// By the rows that were met: none, plain ones, ones in Montgomery form, both.
    tallies: [Tally; 4],
    /// What opens, written again in the form that it had.
    again: [Tally; 2],
    random: &'a mut Random,
    lengths: [usize; 9],
    before: Vec<u64>,
    ours: Vec<u64>,
    expected: Vec<u64>,
}

/// The slices that stand in the words.
fn slices(mut words: &[u64], lengths: [usize; 9]) -> [&[u64]; 9] {
    lengths.map(|length| {
        let (slice, after) = words.split_at(length);
        words = &after[1..];
        slice
    })
}

/// Calls with the slices that stand in the words.
fn call<T>(open: impl Fn(&[u8], [&mut [u64]; 8], &mut [u64]) -> T, bytes: &[u8], words: &mut [u64], lengths: [usize; 9]) -> T {
    let mut rest = words;
    let [slices @ .., counts] = lengths.map(|length| {
        let (slice, after) = std::mem::take(&mut rest).split_at_mut(length);
        rest = &mut after[1..];
        slice
    });
    open(bytes, slices, counts)
}

impl Opening<'_> {
    fn new(random: &mut Random) -> Opening<'_> {
        let tallies = [
            Tally::new("open, no row met"),
            Tally::of_kinds("open, plain rows", &KINDS),
            Tally::of_kinds("open, rows in Montgomery form", &KINDS),
            Tally::new("open, mixed rows"),
        ];
        let again = ["write, what opened, plain rows", "write, what opened, rows in Montgomery form"].map(Tally::new);
        let mut opening = Opening { tallies, again, random, lengths: LENGTHS, before: vec![], ours: vec![], expected: vec![] };
        opening.lend(LENGTHS);
        opening
    }

    /// New slices with arbitrary words.
    fn lend(&mut self, lengths: [usize; 9]) {
        let length = lengths.iter().map(|length| length + 1).sum::<usize>();
        self.before = (0..length).map(|_| self.random.any()).collect();
        (self.ours, self.expected) = (self.before.clone(), self.before.clone());
        self.lengths = lengths;
    }

    /// The number and every word of every slice; answers the number that was expected.
    fn check(&mut self, what: &str, bytes: &[u8]) -> u32 {
        let (rows, number) = call(batch::open, bytes, &mut self.expected, self.lengths);
        let got = call(abi::open, bytes, &mut self.ours, self.lengths);
        let shown: Vec<u64> = [bytes.len() as u64].into_iter().chain(bytes.iter().map(|&byte| byte as u64)).take(16).collect();
        let tally = match rows {
            Rows::None => 0,
            Rows::Of(form) => 1 + form as usize,
            Rows::Mixed => 3,
        };
        self.tallies[tally].check(what, &shown, &self.before, (got, &self.ours), number, &self.expected);
        if number == 0 {
            let [.., counts] = slices(&self.expected, self.lengths);
            self.tallies[tally].count((counts[6] > 0).into());
        }
        match rows {
            Rows::Of(form) if number == 0 && got == 0 && self.ours == self.expected => self.write_again(what, &shown, form, bytes),
            _ => (),
        }
        if number == 0 || got != number || self.ours != self.before {
            self.lend(self.lengths);
        }
        number
    }

    /// The batch that was opened is the one that its contents are written as, in this form.
    fn write_again(&mut self, what: &str, shown: &[u64], form: Form, bytes: &[u8]) {
        let [contents @ .., counts] = slices(&self.ours, self.lengths);
        let [rows, op_stack, ram, jump_stack, input, output, _] = std::array::from_fn(|count| counts[count] as usize);
        let brought = [rows * MAIN_WIDTH, op_stack, ram, jump_stack, LENGTHS[4], LENGTHS[5], input, output];
        let contents = std::array::from_fn(|slice| &contents[slice][..brought[slice]]);
        let before = vec![0xa5; bytes.len()];
        let mut written = before.clone();
        let got = abi::write(contents, form as u64, counts[6], &mut written);
        self.again[form as usize].check(what, shown, &before, (got, &written), 0, bytes);
    }

    /// As `check`, where only one number can be meant.
    fn expect(&mut self, what: &str, bytes: &[u8], number: u32) {
        let meant = self.check(what, bytes);
        if meant != number {
            self.tallies[0].differ(format!("{what}: a case for {number} is one for {meant}"));
        }
    }

    /// As `expect`, with these bytes after the commands.
    fn after(&mut self, what: &str, commands: &Builder, bytes: &[u8], number: u32) {
        self.expect(what, commands.clone().raw(bytes).bytes().as_slice(), number);
    }
}

pub fn below(random: &mut Random, n: usize) -> usize {
    random.word() as usize % n
}

pub fn words(random: &mut Random, n: usize) -> Vec<u64> {
    (0..n).map(|_| random.base()).collect()
}

/// A word that is not below p.
pub fn bad(random: &mut Random) -> u64 {
    [P, P + 1, u64::MAX, P + (random.word() >> 33)][below(random, 4)]
}

fn shuffle(random: &mut Random, commands: &mut [Vec<u8>]) {
    for k in 1..commands.len() {
        commands.swap(k, below(random, k + 1));
    }
}

/// A row's words in this form. In Montgomery form some are edge words as they are sent, some as they are opened.
fn row(random: &mut Random, form: Form) -> [u64; MAIN_WIDTH] {
    std::array::from_fn(|_| match form {
        Form::Montgomery if random.word() % 2 == 0 => to_montgomery(random.base()),
        _ => random.base(),
    })
}

fn is_row(command: &[u8]) -> bool {
    FORMS.iter().any(|&form| row_command(form) == command[0])
}

/// A k whose 2^k rows hold a trace of so many.
pub fn any_height(random: &mut Random, rows: usize) -> u64 {
    let least = rows.next_power_of_two().max(2).ilog2();
    (least + random.word() as u32 % (MAX_LOG2_HEIGHT + 1 - least)).into()
}

/// A batch with these counts, made so.
fn whole(random: &mut Random, made: Made, rows: usize, counts: [usize; 5]) -> Builder {
    let mut batch = Builder::default();
    batch.rows(rows as u32).command(6, &words(random, 177)).command(7, &words(random, 5));
    if made.high {
        batch.height(any_height(random, rows) as u8);
    }
    for _ in 0..rows {
        batch.row_as_sent(made.form, &row(random, made.form));
    }
    for ((command, _), count) in LISTS.into_iter().zip(counts) {
        for _ in 0..count {
            batch.command(command, &[random.base()]);
        }
    }
    batch.end().ordered().clone()
}

/// The same with as many of everything as there may be.
fn largest(random: &mut Random, made: Made) -> Builder {
    whole(random, made, 32, LISTS.map(|list| list.1))
}

/// The bytes of that.
fn most_bytes(made: Made) -> usize {
    16_088 + if made.high { 2 } else { 0 }
}

/// The same made at random, with counts at random, most of them low.
fn random_whole(random: &mut Random) -> Builder {
    let made = MADE[below(random, MADE.len())];
    let most = [1, 1, 1, 2, 3, 128][below(random, 6)];
    let rows = 1 + below(random, most.min(32));
    let counts = LISTS.map(|(_, list)| below(random, most.min(list) + 1));
    whole(random, made, rows, counts)
}

/// Made in each way every number of rows, every count of each list, and the largest batch; `count` others.
fn sound(opening: &mut Opening, count: u64) {
    for made in MADE {
        for rows in 1..=32 {
            let batch = whole(opening.random, made, rows, [rows, 0, 1, 2, 3]);
            opening.expect("rows", &batch.bytes(), 0);
        }
        for (list, (_, most)) in LISTS.into_iter().enumerate() {
            for n in 0..=most {
                let mut counts = [0; 5];
                counts[list] = n;
                let batch = whole(opening.random, made, 1, counts);
                opening.expect("counts", &batch.bytes(), 0);
            }
        }
        for _ in 0..100 {
            let bytes = largest(opening.random, made).bytes();
            assert_eq!(bytes.len(), most_bytes(made));
            opening.expect("largest", &bytes, 0);
        }
    }
    for _ in 0..count {
        let batch = random_whole(opening.random);
        opening.expect("whole", &batch.bytes(), 0);
    }
}

/// Slices of other lengths.
fn lengths(opening: &mut Opening, made: Made) {
    let (least, most) = (whole(opening.random, made, 1, [1; 5]).bytes(), largest(opening.random, made).bytes());
    let batches = [least, most, vec![], vec![UNKNOWN], vec![0; MAX_BYTES + 1]];
    for (slice, length) in LENGTHS.into_iter().enumerate() {
        for other in [0, length - 1, length + 1, length + MAIN_WIDTH, 2 * length, LENGTHS[(slice + 4) % 9]] {
            let mut lengths = LENGTHS;
            lengths[slice] = other;
            opening.lend(lengths);
            batches.iter().for_each(|bytes| opening.expect("lengths", bytes, 1));
        }
        let mut lengths = LENGTHS;
        lengths.swap(slice, (slice + 4) % 9);
        opening.lend(lengths);
        batches.iter().for_each(|bytes| opening.expect("lengths", bytes, 1));
    }
    opening.lend(LENGTHS);
}

/// Batches cut off at every length; every byte changed; every command byte in every command's place.
fn every_byte(opening: &mut Opening, made: Made) {
    let [least, some] = [(1, [0; 5]), (3, [2; 5])].map(|(rows, counts)| whole(opening.random, made, rows, counts));
    for batch in [&least, &some, &largest(opening.random, made)] {
        let bytes = batch.bytes();
        for length in 0..bytes.len() {
            opening.expect("cut off", &bytes[..length], 8);
        }
    }
    for batch in [&least, &some] {
        let bytes = batch.bytes();
        for place in 0..bytes.len() {
            for change in [1, 128, 255] {
                let mut bytes = bytes.clone();
                bytes[place] ^= change;
                opening.check("changed", &bytes);
            }
        }
        for place in 0..batch.commands.len() {
            for command in 0..=255 {
                let mut batch = batch.clone();
                batch.commands[place][0] = command;
                opening.check("other command", &batch.bytes());
            }
        }
    }
}

/// A word that is not below p in every place of every operand; with a later fault, and with an earlier one.
fn bad_words(opening: &mut Opening, made: Made) {
    let batch = whole(opening.random, made, 2, [2; 5]);
    for (place, command) in batch.commands.iter().enumerate().filter(|(_, command)| command.len() > 8) {
        for from in (1..command.len()).step_by(8) {
            for word in [P, P + 1, u64::MAX, bad(opening.random)] {
                let mut batch = batch.clone();
                batch.commands[place][from..from + 8].copy_from_slice(&word.to_le_bytes());
                opening.expect("bad word", &batch.bytes(), 2);
                let cut = batch.commands[..=place].concat();
                opening.expect("bad word, then the end", &cut, 2);
                opening.expect("bad word cut off", &cut[..cut.len() - 1], 8);
                batch.commands.insert(place + 1, vec![UNKNOWN]);
                opening.expect("bad word, then no command", &batch.bytes(), 2);
                batch.commands.swap(place, place + 1);
                opening.expect("no command, then bad word", &batch.bytes(), 7);
            }
        }
    }
}

/// Each edge word in every place of a row, as it is sent and, where the row is in Montgomery form, as it is opened.
fn edge_words(opening: &mut Opening, made: Made) {
    let batch = whole(opening.random, made, 2, [0; 5]);
    for (at, command) in batch.commands.iter().enumerate().filter(|(_, command)| is_row(command)) {
        for from in (1..command.len()).step_by(8) {
            let opened = EDGES.into_iter().filter(|&word| made.form == Form::Montgomery && word < P).map(to_montgomery);
            for word in EDGES.into_iter().chain(opened) {
                let mut batch = batch.clone();
                batch.commands[at][from..from + 8].copy_from_slice(&word.to_le_bytes());
                opening.expect("edge word", &batch.bytes(), if word < P { 0 } else { 2 });
            }
        }
    }
}

/// One row in the other form, in every place among every number of rows: whole, cut off, with words not below p; and rows of either
/// form behind a difference.
fn mixtures(opening: &mut Opening, made: Made) {
    let form = made.form;
    for rows in 2..=32 {
        let batch = whole(opening.random, made, rows, [1; 5]);
        let first = batch.commands.iter().position(|command| is_row(command)).unwrap();
        for place in first..first + rows {
            let mut mixed = batch.clone();
            mixed.commands[place][0] = row_command(other(form));
            opening.expect("mixture", &mixed.bytes(), 9);
            if place == first {
                continue;
            }
            let before = Builder { commands: batch.commands[..place].to_vec() };
            let late = before.clone().op_stack(0).clone();
            for (form, in_place, behind) in [(form, 2, 10), (other(form), 9, 9)] {
                for words in [[P; MAIN_WIDTH], [u64::MAX; MAIN_WIDTH]] {
                    let row = Builder::default().row_as_sent(form, &words).bytes();
                    opening.after("bad words", &before, &row, in_place);
                    opening.after("bad words, late", &late, &row, behind);
                    opening.after("cut off", &before, &row[..312], 8);
                    opening.after("cut off, late", &late, &row[..312], 8);
                }
                let row = Builder::default().row_as_sent(form, &row(opening.random, form)).bytes();
                opening.after("a row", &before, &row, if in_place == 9 { 9 } else { 8 });
                opening.after("a row, late", &late, &row, behind);
            }
        }
    }
}

/// 01 with every kind of number, and with other commands before it; rows missing and rows too many.
fn rows(opening: &mut Opening, made: Made) {
    let powers = (0..32).map(|k| 1u32 << k);
    for announced in (0..300).chain(powers).chain([u32::MAX, u32::MAX - 31, 1 << 24 | 1]) {
        let batch = Builder::default().rows(announced).clone();
        let number = if (1..=32).contains(&announced) { 8 } else { 3 };
        opening.after("announced", &batch, &[], number);
        opening.after("announced, then no command", &batch, &[UNKNOWN], if number == 3 { 3 } else { 7 });
        opening.after("announced, then 00", &batch, &[0], if number == 3 { 3 } else { 9 });
    }
    for announced in 1..=32 {
        for rows in 1..=32 {
            let mut batch = whole(opening.random, made, rows, [1; 5]);
            batch.commands[0] = Builder::default().rows(announced as u32).bytes();
            let low = made.high && is_wrong_height(batch.commands[1][1].into(), announced);
            opening.expect("rows", &batch.bytes(), if low { 12 } else if announced == rows { 0 } else { 9 });
            batch.commands.pop();
            opening.expect("rows without 00", &batch.bytes(), if low { 12 } else if rows > announced { 9 } else { 8 });
        }
    }
    let batch = whole(opening.random, made, 1, [1; 5]);
    for first in 1..batch.commands.len() {
        let mut batch = batch.clone();
        batch.commands.swap(0, first);
        opening.expect("not 01 first", &batch.bytes(), 9);
        for fill in [0, 255] {
            let mut command = batch.commands[0].clone();
            command[1..].fill(fill);
            opening.expect("not 01 first", &command, 9);
            command.pop();
            opening.expect("not 01 first, cut off", &command, 8);
        }
    }
}

/// One command more than there may be, in every place after the last that may: whole, with a bad word, cut off.
fn past_counts(opening: &mut Opening, made: Made) {
    let batch = whole(opening.random, made, 2, LISTS.map(|list| list.1));
    let end = batch.commands.len() - 1;
    let widths = [(1, 4), (2, 312), (3, 8), (4, 8), (5, 8), (6, 1416), (7, 40), (8, 8), (9, 8), (10, 312), (11, 1)];
    for (command, width) in widths.into_iter().filter(|&(command, _)| made.high || command != 11) {
        let last = batch.commands.iter().rposition(|other| rank(other) == rank(&[command])).unwrap();
        for place in last + 1..=end {
            for fill in [0, 1, 255] {
                let mut before = Builder { commands: batch.commands[..place].to_vec() };
                let operand = vec![fill; width];
                opening.after("past a count", &before, &[&[command], &operand[..]].concat(), 9);
                opening.after("past a count, cut off", &before, &[&[command], &operand[1..]].concat(), 8);
                opening.after("past a count, cut off", &before, &[command], 8);
                before.raw(&[command]).raw(&operand).commands.extend_from_slice(&batch.commands[place..]);
                opening.expect("past a count, then the rest", &before.bytes(), 9);
            }
        }
    }
}

/// Every command moved to every place; one more of each list in every place; differences beside the one before, or far from it.
fn orders(opening: &mut Opening, made: Made) {
    let batch = whole(opening.random, made, 2, [2; 5]);
    let end = batch.commands.len() - 1;
    for from in 1..end {
        for to in 1..end {
            let mut moved = batch.clone();
            let command = moved.commands.remove(from);
            moved.commands.insert(to, command);
            if batch.commands[from][0] == batch.commands[to][0] {
                opening.check("moved", &moved.bytes());
            } else {
                opening.expect("moved", &moved.bytes(), 10);
            }
        }
    }
    for (command, _) in LISTS {
        for place in 1..=end {
            let (before, after) = batch.commands.split_at(place);
            for word in [0, P - 1, bad(opening.random)] {
                let one = Builder::default().command(command, &[word]).clone();
                let late = rank(&before[place - 1]) > rank(&one.commands[0]);
                let early = rank(&after[0]) < rank(&one.commands[0]);
                let more = Builder { commands: [before, &one.commands, after].concat() };
                match word {
                    _ if late => opening.expect("one more, late", &more.bytes(), 10),
                    0..P if early => opening.expect("one more, early", &more.bytes(), 10),
                    P.. => opening.expect("one more, bad word", &more.bytes(), 2),
                    _ => drop(opening.check("one more", &more.bytes())),
                }
                opening.after("one more, cut off", &Builder { commands: before.to_vec() }, &one.bytes()[..8], 8);
            }
        }
    }
    let least = whole(opening.random, made, 1, [0; 5]);
    for command in 3..=5 {
        for before in EDGES.into_iter().filter(|&word| word < P) {
            for word in EDGES.into_iter().chain([before.saturating_sub(1), before, before + 1]) {
                let mut batch = Builder { commands: least.commands[..least.commands.len() - 1].to_vec() };
                batch.command(command, &[before]).command(command, &[word]).end();
                let number = if word < before { 10 } else if word < P { 0 } else { 2 };
                opening.expect("two differences", &batch.bytes(), number);
            }
        }
    }
}

/// Every k with every number of rows; 0B in every place: one that the batch lacks, and a second one, with a k in range and not.
fn heights(opening: &mut Opening, made: Made) {
    for rows in 1..=32 {
        for k in 0..=255 {
            let begun = Builder::default().rows(rows as u32).height(k).clone();
            let number = |right| if is_wrong_height(k.into(), rows) { 12 } else { right };
            opening.after("height", &begun, &[], number(8));
            opening.after("height, then no command", &begun, &[UNKNOWN], number(7));
            opening.after("height, then 00", &begun, &[0], number(9));
            opening.after("height, then another", &begun, &[11, k], number(9));
            if made.high {
                let mut batch = whole(opening.random, made, rows, [0; 5]);
                batch.commands[1][1] = k;
                opening.expect("height", &batch.bytes(), number(0));
            }
        }
    }
    for rows in [1, 2, 3, 32] {
        let batch = whole(opening.random, made, rows, [1; 5]);
        for place in 0..=batch.commands.len() {
            for k in [0, 1, 2, 5, 22, 23, 128, 255] {
                let (before, after) = batch.commands.split_at(place);
                let before = Builder { commands: before.to_vec() };
                let number = match (place, made.high) {
                    (0, _) => 9,
                    (1, _) if is_wrong_height(k.into(), rows) => 12,
                    (1, true) => 9,
                    (1, false) => 0,
                    _ if made.high || after.is_empty() => 9,
                    _ => 10,
                };
                opening.after("0B in any place", &before, &[&[11, k], &after.concat()[..]].concat(), number);
                opening.after("0B cut off", &before, &[11], if after.is_empty() { 9 } else { 8 });
            }
        }
    }
}

/// 00 in every place, with a command missing and with bytes after it; about 16,384 bytes; five commands in every order, also of six.
fn ends(opening: &mut Opening, made: Made) {
    let (batch, most) = (whole(opening.random, made, 3, [3; 5]), largest(opening.random, made));
    for place in 0..batch.commands.len() {
        let mut missing = batch.clone();
        let command = missing.commands.remove(place)[0];
        let number = [8, 9, 9, 0, 0, 0, 9, 9, 0, 0, 9, 0][command as usize];
        opening.expect("missing", &missing.bytes(), number);
        let mut early = batch.clone();
        early.commands.insert(place, vec![0]);
        opening.expect("early 00", &early.bytes(), 9);
    }
    for after in 0..=255 {
        opening.after("bytes after 00", &batch, &[after], 9);
        opening.after("bytes after 00", &batch, &vec![after; 3000], 9);
    }
    for length in MAX_BYTES - 300..MAX_BYTES + 300 {
        let mut bytes = most.bytes();
        bytes.resize(length, length as u8);
        let whole = most_bytes(made);
        let number = if length > MAX_BYTES { 1 } else if length == whole { 0 } else if length < whole { 8 } else { 9 };
        opening.expect("length", &bytes, number);
        bytes.fill(UNKNOWN);
        opening.expect("length of rubbish", &bytes, if length > MAX_BYTES { 1 } else { 7 });
    }
    for length in [MAX_BYTES + 1, 1 << 16, 1 << 20] {
        opening.expect("too long", &vec![UNKNOWN; length], 1);
    }
    let mut some = Builder::default().rows(1).row_as_sent(made.form, &[0; MAIN_WIDTH]).sampled(&[0; 177]).digest(&[0; 5]).end().clone();
    if made.high {
        some.height(1);
    }
    let n = some.commands.len();
    for order in 0..n.pow(5) {
        let commands: [&[u8]; 5] = std::array::from_fn(|place| some.commands[order / n.pow(place as u32) % n].as_slice());
        opening.check("order", &commands.concat());
    }
}

/// Another order or number of commands, or another operand.
fn damage_commands(random: &mut Random, commands: &mut Vec<Vec<u8>>) {
    let (at, other) = (below(random, commands.len()), below(random, commands.len()));
    let command = commands[at].clone();
    match random.word() % 14 {
        0 => commands.swap(at, other),
        12 => {
            let height = vec![11, [0, 1, 5, 22, 23, random.word() as u8][below(random, 6)]];
            match commands.iter().position(|command| command[0] == 11) {
                Some(at) => commands[at] = height,
                None => commands.insert([1, other][below(random, 2)], height),
            }
        }
        11 => {
            let rows: Vec<usize> = (0..commands.len()).filter(|&at| is_row(&commands[at])).collect();
            commands[rows[below(random, rows.len())]][0] ^= 2 ^ 10;
        }
        1 => shuffle(random, commands),
        2 => commands.insert(other, command),
        8 => {
            commands.remove(at);
            commands.insert(other, command);
        }
        9 if at > 0 => commands.swap(at - 1, at),
        10 if command.len() == 9 => {
            let word = u64::from_le_bytes(command[1..].try_into().unwrap());
            let other = [word.saturating_sub(1), word.saturating_add(1), word >> 8, word << 8, random.base()][below(random, 5)];
            commands[at][1..].copy_from_slice(&other.to_le_bytes());
        }
        3 => commands[at].truncate(below(random, command.len())),
        4 => commands[at][0] = random.word() as u8 % [UNKNOWN, UNKNOWN + 2, 255][below(random, 3)],
        5 => {
            let announced = [0, 33, 1 << 31, 1 << 24, random.word() as u32, random.word() as u32 % 40][below(random, 6)];
            commands[0] = Builder::default().rows(announced).bytes();
        }
        6 if command.len() > 8 => {
            let from = 1 + 8 * below(random, command.len() / 8);
            commands[at][from..from + 8].copy_from_slice(&bad(random).to_le_bytes());
        }
        7 if command.len() == 9 => drop(commands.splice(at..at, vec![command; 64 + below(random, 65)])),
        _ => drop(commands.remove(at)),
    }
}

/// Bytes changed, lost, added, cut off, or too many.
pub fn damage_bytes(random: &mut Random, bytes: &mut Vec<u8>) {
    let near = [8, 64, bytes.len()][below(random, 3)].min(bytes.len());
    let place = if random.word() % 2 == 0 { below(random, near) } else { bytes.len() - 1 - below(random, near) };
    let n = 1 + below(random, 9);
    match random.word() % 8 {
        0 => bytes[place] ^= 1 << (random.word() % 8),
        1 => bytes[place] = random.word() as u8,
        2 => bytes[place] = random.word() as u8 % (UNKNOWN + 1),
        3 => bytes.truncate(place),
        4 => drop(bytes.drain(place..(place + n).min(bytes.len()))),
        5 => drop(bytes.splice(place..place, (0..n).map(|_| random.word() as u8 % (UNKNOWN + 1)))),
        6 => bytes.extend((0..n).map(|_| random.word() as u8)),
        _ if random.word() % 8 == 0 => bytes.resize(MAX_BYTES + n, 0),
        _ => bytes[place..].fill(255),
    }
}

/// A whole batch damaged once, or twice.
fn damaged(random: &mut Random, batch: &Builder) -> Vec<u8> {
    let mut commands = batch.commands.clone();
    let damage = random.word() % 4;
    if damage < 3 {
        damage_commands(random, &mut commands);
    }
    let mut bytes = commands.concat();
    if damage > 1 {
        damage_bytes(random, &mut bytes);
    }
    bytes
}

/// A few commands at random, 01 mostly first, half of them in order, most of them whole; or bytes at random.
fn babble(random: &mut Random) -> Vec<u8> {
    if random.word() % 16 == 0 {
        return (0..random.word() % 64).map(|_| random.word() as u8 % [3, UNKNOWN, 255][below(random, 3)]).collect();
    }
    let mut batch = Builder::default();
    if random.word() % 8 != 0 {
        batch.rows(random.word() as u32 % 35);
    }
    for _ in 0..random.word() % 8 {
        let command = random.word() as u8 % [UNKNOWN + 1, UNKNOWN + 1, UNKNOWN + 1, 255][below(random, 4)];
        let widths = [0, 0, MAIN_WIDTH, 1, 1, 1, 177, 5, 1, 1, MAIN_WIDTH, 0];
        let mut operand = words(random, widths.get(command as usize).copied().unwrap_or(0));
        if !operand.is_empty() && random.word() % 16 == 0 {
            let place = below(random, operand.len());
            operand[place] = bad(random);
        }
        match command {
            1 => batch.rows(random.word() as u32 % 35),
            11 => batch.height(random.word() as u8 % 25),
            _ => batch.command(command, &operand),
        };
    }
    if random.word() % 2 == 0 {
        batch.ordered();
    }
    let mut bytes = batch.bytes();
    if random.word() % 4 == 0 {
        bytes.truncate(below(random, bytes.len() + 1));
    }
    bytes
}

/// Whole batches; then batches made in each way with a fault in every place, and `count` damaged at random.
pub fn compare(random: &mut Random, count: u64) -> bool {
    let mut opening = Opening::new(random);
    sound(&mut opening, count / 40);
    for made in MADE {
        for faults in [lengths, every_byte, bad_words, edge_words, mixtures, rows, past_counts, orders, heights, ends] {
            faults(&mut opening, made);
        }
    }
    for _ in 0..count / 12 {
        let batch = random_whole(opening.random);
        for _ in 0..8 {
            let bytes = damaged(opening.random, &batch);
            opening.check("damaged", &bytes);
        }
        for _ in 0..4 {
            let bytes = babble(opening.random);
            opening.check("babble", &bytes);
        }
    }
    let numbers: [&[usize]; 4] = [&[1, 2, 3, 7, 8, 9, 10, 12], &[0, 2, 7, 8, 9, 10], &[0, 2, 7, 8, 9, 10], &[9]];
    for (tally, numbers) in opening.tallies.iter_mut().zip(numbers) {
        tally.reached(numbers);
    }
    opening.again.iter_mut().for_each(|tally| tally.reached(&[0]));
    opening.tallies.iter().chain(&opening.again).fold(true, |right, tally| tally.report() & right)
}
