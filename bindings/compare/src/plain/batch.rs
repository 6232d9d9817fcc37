//! A reader and a writer of batches as the papers describe them, command by command.

use tealbobbin::batch::{Form, MAX_BYTES, MAX_DIFFERENCES, MAX_IO_WORDS, MAX_LOG2_HEIGHT, MAX_TRACE_ROWS};
use tealbobbin::challenges::SampledChallenges;
use tealbobbin::field::P;
use tealbobbin::processor::MAIN_WIDTH;

use super::{from_montgomery, to_montgomery};

/// The lengths of the slices for trace, op stack, RAM, jump stack, sampled, digest, input and output, and of the counts.
pub const LENGTHS: [usize; 9] = [
    MAX_TRACE_ROWS * MAIN_WIDTH,
    MAX_DIFFERENCES,
    MAX_DIFFERENCES,
    MAX_DIFFERENCES,
    SampledChallenges::WORDS,
    5,
    MAX_IO_WORDS,
    MAX_IO_WORDS,
    7,
];

/// The operand's width in bytes, by command.
const WIDTHS: [usize; 12] = [0, 4, 312, 8, 8, 8, 1416, 40, 8, 8, 312, 1];

/// The least byte that is no command.
pub const UNKNOWN: u8 = WIDTHS.len() as u8;

/// Each command's place in a batch's order, which is 01, 0B, 07, 08, 09, 06, rows, 03, 04, 05, 00.
const RANKS: [usize; 12] = [10, 0, 6, 7, 8, 9, 5, 2, 3, 4, 6, 1];

/// The place of a command, with its operand or without, in that order.
pub fn rank(command: &[u8]) -> Option<usize> {
    RANKS.get(*command.first()? as usize).copied()
}

/// The forms of rows.
pub const FORMS: [Form; 2] = [Form::Plain, Form::Montgomery];

/// The command of a row in this form.
pub fn row_command(form: Form) -> u8 {
    match form {
        Form::Plain => 2,
        Form::Montgomery => 10,
    }
}

pub fn other(form: Form) -> Form {
    match form {
        Form::Plain => Form::Montgomery,
        Form::Montgomery => Form::Plain,
    }
}

/// Whether 2^k rows are no height for a trace of so many rows.
pub fn is_wrong_height(k: u64, rows: usize) -> bool {
    k == 0 || k > MAX_LOG2_HEIGHT.into() || 1 << k < rows
}

/// The height of the table for a trace of so many rows, where a batch has this k, or 0 for none.
pub fn height(k: u64, rows: usize) -> usize {
    if k > 0 {
        1 << k
    } else {
        rows.next_power_of_two().max(2)
    }
}

/// The rows that were met up to the answer.
#[derive(Debug, Clone, Copy, PartialEq, Eq)]
pub enum Rows {
    None,
    Of(Form),
    Mixed,
}

const SAMPLED: usize = 4;
const DIGEST: usize = 5;

/// The words that a batch brings for each of the eight slices, and its k, or 0 for none.
pub type Brought = ([Vec<u64>; 8], u64);

/// What a batch brings, or the number of its refusal; and the rows that were met.
pub fn read(bytes: &[u8]) -> (Rows, Result<Brought, u32>) {
    let mut rows = Rows::None;
    let brought = read_rows(bytes, &mut rows);
    (rows, brought)
}

fn read_rows(bytes: &[u8], met: &mut Rows) -> Result<Brought, u32> {
    let [mut brought @ .., _] = LENGTHS.map(Vec::with_capacity);
    let (mut announced, mut k, mut reached) = (None, 0, 0);
    let mut rest = bytes;
    while let Some((&command, operands)) = rest.split_first() {
        let width = *WIDTHS.get(command as usize).ok_or(7u32)?;
        let (operand, after) = operands.split_at_checked(width).ok_or(8u32)?;
        rest = after;
        match (command, announced) {
            (1, None) => match u32::from_le_bytes(operand.try_into().unwrap()) {
                rows @ 1..=32 => announced = Some(rows as usize),
                _ => return Err(3),
            },
            (1, Some(_)) | (_, None) => return Err(9),
            (0, Some(rows)) => {
                let whole = brought[0].len() == rows * MAIN_WIDTH && !brought[SAMPLED].is_empty() && !brought[DIGEST].is_empty();
                return if whole && after.is_empty() { Ok((brought, k)) } else { Err(9) };
            }
            (11, Some(rows)) => {
                if k > 0 {
                    return Err(9);
                }
                if RANKS[11] < reached {
                    return Err(10);
                }
                (k, reached) = (operand[0].into(), RANKS[11]);
                if is_wrong_height(k, rows) {
                    return Err(12);
                }
            }
            (_, Some(rows)) => {
                let form = FORMS.into_iter().find(|&form| row_command(form) == command);
                let slice = if form.is_some() { 0 } else { command as usize - 2 };
                let most = if slice == 0 { rows * MAIN_WIDTH } else { LENGTHS[slice] };
                let before = &mut brought[slice];
                if let Some(form) = form {
                    *met = if [Rows::None, Rows::Of(form)].contains(met) { Rows::Of(form) } else { Rows::Mixed };
                }
                if before.len() == most || *met == Rows::Mixed {
                    return Err(9);
                }
                let words = operand.chunks_exact(8).map(|word| u64::from_le_bytes(word.try_into().unwrap()));
                let descends = matches!(command, 3..=5) && words.clone().next() < before.last().copied();
                if RANKS[command as usize] < reached || descends {
                    return Err(10);
                }
                if words.clone().any(|word| word >= P) {
                    return Err(2);
                }
                reached = RANKS[command as usize];
                match form {
                    Some(Form::Montgomery) => before.extend(words.map(from_montgomery)),
                    _ => before.extend(words),
                }
            }
        }
    }
    Err(8)
}

/// Reads a batch into lent slices: 0, or the number of the refusal with nothing written; and the rows that were met.
pub fn open(bytes: &[u8], slices: [&mut [u64]; 8], counts: &mut [u64]) -> (Rows, u32) {
    let lengths = slices.iter().map(|slice| slice.len()).chain([counts.len()]);
    if bytes.len() > MAX_BYTES || !lengths.eq(LENGTHS) {
        return (Rows::None, 1);
    }
    let (rows, brought) = read(bytes);
    let number = match brought {
        Ok((brought, k)) => {
            let [rows, op_stack, ram, jump_stack, _, _, input, output] = brought.each_ref().map(|words| words.len() as u64);
            counts.copy_from_slice(&[rows / MAIN_WIDTH as u64, op_stack, ram, jump_stack, input, output, k]);
            for (slice, words) in slices.into_iter().zip(brought) {
                slice[..words.len()].copy_from_slice(&words);
            }
            0
        }
        Err(number) => number,
    };
    (rows, number)
}

/// The bytes of the batch with these slices' contents, whatever their lengths, and 2^k rows, or 0 for none.
pub fn length(slices: &[&[u64]; 8], k: u64) -> usize {
    let [trace, op_stack, ram, jump_stack, _, _, input, output] = slices.map(|slice| slice.len());
    1464 + 313 * (trace / MAIN_WIDTH) + 9 * (op_stack + ram + jump_stack + input + output) + if k == 0 { 0 } else { 2 }
}

/// A command with words for its operand; answers the bytes after it.
fn put<'a>(bytes: &'a mut [u8], command: u8, words: &[u64]) -> &'a mut [u8] {
    let (written, after) = bytes.split_at_mut(1 + 8 * words.len());
    written[0] = command;
    for (bytes, word) in written[1..].chunks_exact_mut(8).zip(words) {
        bytes.copy_from_slice(&word.to_le_bytes());
    }
    after
}

/// The same command for each `width` words.
fn put_each<'a>(bytes: &'a mut [u8], command: u8, words: &[u64], width: usize) -> &'a mut [u8] {
    words.chunks_exact(width).fold(bytes, |bytes, words| put(bytes, command, words))
}

fn put_sorted<'a>(bytes: &'a mut [u8], command: u8, words: &[u64]) -> &'a mut [u8] {
    let mut sorted = words.to_vec();
    sorted.sort_unstable();
    put_each(bytes, command, &sorted, 1)
}

/// Writes the batch with these slices' contents, rows of this form and 2^k rows, or 0 for none: 0, or the number of the refusal with
/// nothing written.
pub fn write(slices: [&[u64]; 8], form: Form, k: u64, bytes: &mut [u8]) -> u32 {
    let [trace, op_stack, ram, jump_stack, sampled, digest, input, output] = slices;
    let rows = trace.len() / MAIN_WIDTH;
    if trace.len() % MAIN_WIDTH != 0
        || [op_stack, ram, jump_stack].iter().any(|list| list.len() > MAX_DIFFERENCES)
        || [input, output].iter().any(|words| words.len() > MAX_IO_WORDS)
        || sampled.len() != SampledChallenges::WORDS
        || digest.len() != 5
        || bytes.len() != length(&slices, k)
    {
        return 1;
    }
    if rows == 0 || rows > MAX_TRACE_ROWS {
        return 3;
    }
    if k != 0 && is_wrong_height(k, rows) {
        return 12;
    }
    if slices.iter().any(|slice| slice.iter().any(|&word| word >= P)) {
        return 2;
    }
    let (announced, rest) = bytes.split_at_mut(5);
    announced[0] = 1;
    announced[1..].copy_from_slice(&(rows as u32).to_le_bytes());
    let rest = match k {
        0 => rest,
        _ => {
            let (height, rest) = rest.split_at_mut(2);
            height.copy_from_slice(&[11, k as u8]);
            rest
        }
    };
    let rest = put(rest, 7, digest);
    let rest = put_each(rest, 8, input, 1);
    let rest = put_each(rest, 9, output, 1);
    let rest = put(rest, 6, sampled);
    let rest = match form {
        Form::Plain => put_each(rest, 2, trace, MAIN_WIDTH),
        Form::Montgomery => put_each(rest, 10, &trace.iter().copied().map(to_montgomery).collect::<Vec<u64>>(), MAIN_WIDTH),
    };
    let rest = put_sorted(rest, 3, op_stack);
    let rest = put_sorted(rest, 4, ram);
    let rest = put_sorted(rest, 5, jump_stack);
    put(rest, 0, &[]);
    0
}
