//! Opening and writing: the crate's [`Batch`] and plain Rust.

use compare::builder::Builder;
use compare::plain;
use compare::plain::batch::{other, FORMS, UNKNOWN};
use tealbobbin::abi;
use tealbobbin::batch::{Batch, Form, MAX_BYTES};
use tealbobbin::challenges::{Claim, SampledChallenges};
use tealbobbin::field::{Element, P};
use tealbobbin::processor::{ClkJumpDiffs, MainRow};
use tealbobbin::Refusal;

/// The library's answer and the plain reader's.
fn answers(batch: &Builder, number: u32) {
    let bytes = batch.bytes();
    assert_eq!(Batch::open(&bytes).err().map_or(0, Refusal::number), number);
    assert_eq!(plain::batch::read(&bytes).1.err().unwrap_or(0), number);
}

fn new() -> Builder {
    Builder::default()
}

/// What stands before the rows.
fn head(rows: u32) -> Builder {
    new().rows(rows).digest(&[0; 5]).sampled(&[2; 177]).clone()
}

/// One row, digest and challenges; the end is still to come.
fn run() -> Builder {
    head(1).row(&[0; 39]).clone()
}

/// One of every command but the end.
fn one_of_each() -> Builder {
    run().height(6).input(1).output(2).op_stack(3).ram(4).jump_stack(5).ordered().clone()
}

#[test]
fn first_commands() {
    answers(&new(), 8);
    answers(new().end(), 9);
    answers(new().raw(&[2; 312]), 8);
    answers(new().row(&[0; 39]), 9);
    answers(new().row(&[P; 39]), 9);
    answers(new().raw(&[UNKNOWN]), 7);
    answers(new().raw(&[255]), 7);
    answers(new().row_as_sent(Form::Montgomery, &[0; 39]), 9);
    answers(new().raw(&[10; 312]), 8);
    answers(new().rows(1), 8);
    answers(new().raw(&[1, 1, 0, 0]), 8);
    answers(new().raw(&[1, 0, 0, 0]), 8);
}

#[test]
fn rows_announced() {
    for rows in [0, 33, 1 << 8, 1 << 24, 1 << 31, u32::MAX] {
        answers(new().rows(rows), 3);
        answers(new().rows(rows).raw(b"rubbish"), 3);
    }
    answers(run().rows(1), 9);
    answers(run().rows(0), 9);
    answers(run().raw(&[1, 0, 0, 0]), 8);
    answers(run().row(&[0; 39]), 9);
    answers(head(2).row(&[0; 39]).end(), 9);
}

/// Also behind commands that belong after it.
#[test]
fn past_a_count() {
    for (command, most) in [(3, 128), (4, 128), (5, 128), (8, 64), (9, 64)] {
        let mut full = run();
        for k in 0..most {
            full.command(command, &[k]);
        }
        full.ordered();
        answers(full.clone().end(), 0);
        answers(full.clone().command(command, &[0]), 9);
        answers(full.clone().command(command, &[P]), 9);
        answers(full.clone().raw(&[command, 0, 0, 0, 0, 0, 0, 0]), 8);
        answers(full.clone().raw(&[command]), 8);
        answers(full.clone().command(command, &[most]).ordered().end(), 9);
    }
    for (command, words) in [(6, 177), (7, 5)] {
        answers(run().command(command, &vec![0; words]), 9);
        answers(run().command(command, &vec![P; words]), 9);
        answers(run().command(command, &vec![P; words - 1]), 8);
    }
}

/// Directly after 01, at most once: 9 before 10 before 12, as sent.
#[test]
fn heights_announced() {
    for rows in 1..=32 {
        for k in 0..=255 {
            let right = (1..=22).contains(&k) && 1u64 << k >= rows as u64;
            answers(new().rows(rows).height(k), if right { 8 } else { 12 });
            answers(new().rows(rows).height(k).raw(&[UNKNOWN]), if right { 7 } else { 12 });
            answers(new().rows(rows).height(k).height(k), if right { 9 } else { 12 });
            answers(new().rows(rows).digest(&[0; 5]).height(k), 10);
            answers(new().rows(rows).height(22).digest(&[0; 5]).height(k), 9);
        }
    }
    answers(new().height(1), 9);
    answers(new().height(0), 9);
    answers(new().raw(&[11]), 8);
    answers(new().rows(1).raw(&[11]), 8);
    answers(new().rows(0).height(0), 3);
    answers(run().height(0), 10);
    answers(run().raw(&[11]), 8);
    answers(run().end().height(1), 9);
}

#[test]
fn commands_out_of_order() {
    let batch = one_of_each();
    assert_eq!(batch.clone().end().commands.iter().map(|command| command[0]).collect::<Vec<u8>>(), [1, 11, 7, 8, 9, 6, 2, 3, 4, 5, 0]);
    answers(batch.clone().end(), 0);
    for from in 1..batch.commands.len() {
        for to in from + 1..batch.commands.len() {
            let mut late = batch.clone();
            let command = late.commands.remove(from);
            late.commands.insert(to, command);
            answers(late.clone().end(), 10);
            late.commands[to][1..].fill(255);
            late.commands.truncate(to + 1);
            answers(&late, 10);
            late.commands[to].pop();
            answers(&late, 8);
        }
    }
    // challenges that are missing are no fault before the end, or before they come late
    let missing = new().rows(1).digest(&[0; 5]).row(&[0; 39]).clone();
    answers(&missing, 8);
    answers(missing.clone().end(), 9);
    answers(missing.clone().sampled(&[2; 177]), 10);
}

#[test]
fn differences_descending() {
    for command in 3..=5 {
        let after = |first: u64, second: u64| run().command(command, &[first]).command(command, &[second]).end().clone();
        answers(&after(0, 0), 0);
        answers(&after(7, 7), 0);
        answers(&after(P - 1, P - 1), 0);
        answers(&after(7, 6), 10);
        answers(&after(1 << 32, 1), 10);
        answers(&after(1 << 56, 255), 10);
        answers(&after(P - 1, 0), 10);
        answers(&after(P - 1, P), 2);
        answers(&after(P, 0), 2);
    }
    answers(run().op_stack(9).ram(8).jump_stack(7).end(), 0);
    answers(run().op_stack(1).op_stack(3).op_stack(2).end(), 10);
    // input and output words are in any order
    answers(run().input(2).input(1).output(2).output(1).end().ordered(), 0);
}

#[test]
fn words_not_below_p() {
    for command in [3, 4, 5, 8, 9] {
        let one = |word: u64| run().command(command, &[word]).end().ordered().clone();
        answers(&one(P - 1), 0);
        answers(&one(P), 2);
        answers(one(P).raw(&[UNKNOWN]), 2);
        answers(new().rows(1).raw(&[UNKNOWN]).command(command, &[P]), 7);
    }
    for form in FORMS {
        for word in 0..39 {
            let mut row = [P - 1; 39];
            answers(head(1).row_as_sent(form, &row).end(), 0);
            row[word] = P;
            answers(head(1).row_as_sent(form, &row).end(), 2);
        }
    }
}

/// A row of the other form, before 10 and 2 and after 8.
#[test]
fn mixtures() {
    for form in FORMS {
        let zeros = [0; 39];
        let one = head(3).row_as_sent(form, &zeros).clone();
        let two = one.clone().row_as_sent(form, &zeros).clone();
        for before in [&one, &two] {
            answers(before.clone().row_as_sent(other(form), &zeros), 9);
            answers(before.clone().row_as_sent(other(form), &[P; 39]), 9);
            answers(before.clone().row_as_sent(form, &[P; 39]), 2);
            answers(before.clone().op_stack(0).row_as_sent(other(form), &zeros), 9);
            answers(before.clone().op_stack(0).row_as_sent(form, &[P; 39]), 10);
            answers(before.clone().raw(&[if form == Form::Plain { 10 } else { 2 }; 312]), 8);
        }
        answers(two.clone().row_as_sent(form, &zeros).end(), 0);
        answers(two.clone().row_as_sent(other(form), &zeros).end(), 9);
    }
}

/// 0, 1 and p - 1 in the form.
#[test]
fn rows_in_montgomery_form() {
    let mut row = [0; 39];
    (row[0], row[38]) = (4294967295, 18446744065119617026);
    let opened = Batch::open(&head(1).row_as_sent(Form::Montgomery, &row).end().bytes()).unwrap();
    (row[0], row[38]) = (1, P - 1);
    assert_eq!(opened.trace(), [MainRow(row)]);
    assert_eq!(opened, Batch::open(&head(1).row(&row).end().bytes()).unwrap());
}

#[test]
fn ends() {
    answers(&run(), 8);
    answers(run().end(), 0);
    for after in [0, 1, 9, 10, 11, 255] {
        answers(run().end().raw(&[after]), 9);
    }
    answers(new().rows(1).end(), 9);
    answers(new().rows(1).height(1).end(), 9);
    for missing in 1..4 {
        let mut batch = run();
        batch.commands.remove(missing);
        answers(&batch, 8);
        answers(batch.end(), 9);
    }
}

#[test]
fn longest() {
    let mut batch = run();
    batch.commands[0] = new().rows(32).bytes();
    for row in 1..32 {
        batch.row(&[row; 39]);
    }
    for k in (0..128).rev() {
        batch.jump_stack(k).op_stack(2 * k).ram(3 * k);
    }
    for k in 0..64 {
        batch.output(5 * k).input(4 * k);
    }
    let bytes = batch.end().ordered().bytes();
    assert_eq!(bytes.len(), 16_088);
    let multiples = |count: u64, of: u64| (0..count).map(|k| of * k).collect::<Vec<u64>>();
    let [jump_stack, op_stack, ram] = [1, 2, 3].map(|of| multiples(128, of));
    let opened = Batch::open(&bytes).unwrap();
    assert_eq!(opened.trace(), (0..32).map(|row| MainRow([row; 39])).collect::<Vec<MainRow>>());
    assert_eq!(opened.differences(), ClkJumpDiffs { op_stack: &op_stack, ram: &ram, jump_stack: &jump_stack });
    assert_eq!([opened.claim().input, opened.claim().output], [multiples(64, 4), multiples(64, 5)]);
    assert_eq!((opened.sampled().0, opened.claim().program_digest), ([Element([2; 3]); 59], [0; 5]));
    assert_eq!(Batch::open(&[0; MAX_BYTES + 1]), Err(Refusal::SliceLength));
    assert_eq!(Batch::open(&[0; MAX_BYTES]), Err(Refusal::CommandOutOfPlace));
}

#[test]
fn heights() {
    for (rows, height) in [(1, 2), (2, 2), (3, 4), (4, 4), (5, 8), (17, 32), (32, 32)] {
        let mut batch = head(rows);
        for _ in 0..rows {
            batch.row(&[0; 39]);
        }
        let opened = Batch::open(&batch.end().bytes()).unwrap();
        assert_eq!((opened.log2_height(), opened.padded_height()), (None, height));
        for k in height.ilog2()..=22 {
            let opened = Batch::open(&batch.clone().height(k as u8).ordered().bytes()).unwrap();
            assert_eq!((opened.log2_height(), opened.padded_height()), (Some(k), 1 << k));
        }
    }
}

#[test]
fn equality() {
    let open = |batch: &mut Builder| Batch::open(&batch.end().ordered().bytes()).unwrap();
    let one = open(run().input(1).output(2));
    assert_eq!(one, open(run().output(2).input(1)));
    assert_ne!(one, open(run().input(2).output(1)));
    assert_ne!(one, open(run().input(1)));
    assert_ne!(open(run().ram(0)), open(run().op_stack(0)));
    // the height that the trace would set
    assert_ne!(open(run().height(1)), open(&mut run()));
    assert_ne!(open(run().height(1)), open(run().height(2)));
}

/// The library's answer and the plain writer's in each form; nothing is written where it is not 0.
fn writes(contents: [&[u64]; 8], k: u64, length: usize, number: u32) -> [Vec<u8>; 2] {
    FORMS.map(|form| {
        let (mut ours, mut plainly) = (vec![0xa5; length], vec![0xa5; length]);
        assert_eq!(abi::write(contents, form as u64, k, &mut ours), number);
        assert_eq!(plain::batch::write(contents, form, k, &mut plainly), number);
        assert_eq!(ours, plainly);
        assert!(number == 0 || ours == vec![0xa5; length]);
        ours
    })
}

#[test]
fn written() {
    let (mut trace, sampled, digest) = (vec![8; 2 * 39], [6; 177], [7; 5]);
    trace[39..].fill(9);
    let contents = [&trace[..], &[5, 3, 4, 3], &[P - 1, 0], &[1], &sampled, &digest, &[2, 1], &[3, 9, 3]];
    let batches = FORMS.map(|form| {
        // 8 and 9 in the form
        let [first, second] = if form == Form::Plain { [8, 9] } else { [34359738360, 38654705655] };
        let mut batch = new();
        batch.rows(2).height(9).digest(&digest).input(2).input(1).output(3).output(9).output(3).sampled(&sampled);
        batch.row_as_sent(form, &[first; 39]).row_as_sent(form, &[second; 39]);
        batch.op_stack(3).op_stack(3).op_stack(4).op_stack(5).ram(0).ram(P - 1).jump_stack(1);
        batch.end().bytes()
    });
    let length = plain::batch::length(&contents, 9);
    assert_eq!(writes(contents, 9, length, 0), batches);
    let without = batches.each_ref().map(|bytes| [&bytes[..5], &bytes[7..]].concat());
    assert_eq!(writes(contents, 0, length - 2, 0), without);

    let mut filled = Batch::new();
    filled.set_trace(&[MainRow([8; 39]), MainRow([9; 39])]).unwrap();
    filled.set_differences(ClkJumpDiffs { op_stack: &[3, 5, 4, 3], ram: &[P - 1, 0], jump_stack: &[1] }).unwrap();
    filled.set_sampled(&SampledChallenges([Element([6; 3]); 59]));
    filled.set_claim(Claim { program_digest: digest, input: &[2, 1], output: &[3, 9, 3] }).unwrap();
    filled.set_log2_height(Some(9)).unwrap();
    for (form, bytes) in FORMS.into_iter().zip(batches) {
        let opened = Batch::open(&bytes).unwrap();
        assert_ne!(filled, opened);
        for batch in [&filled, &opened] {
            let mut again = vec![0; batch.written_len()];
            batch.write(form, &mut again).unwrap();
            assert_eq!(again, bytes);
        }
    }
}

/// What is wrong comes first in the order 1, 3, 12, 2.
#[test]
fn not_written() {
    let words = vec![P; 41 * 39];
    let (list, io) = (&words[..128], &words[..64]);
    let contents = |rows: usize| [&words[..rows * 39], list, list, list, &words[..177], &words[..5], io, io];
    for rows in [0, 1, 32, 33, 40] {
        let (contents, length) = (contents(rows), 1464 + 313 * rows + 9 * 512);
        writes(contents, 0, length, if (1..=32).contains(&rows) { 2 } else { 3 });
        for k in [1, 4, 5, 22, 23, 64, 256 + 5, (1 << 32) + 5, u64::MAX] {
            let right = k <= 22 && rows <= 1 << k;
            writes(contents, k, length + 2, if !(1..=32).contains(&rows) { 3 } else if right { 2 } else { 12 });
            writes(contents, k, length, 1);
        }
        writes(contents, 0, length - 1, 1);
        writes(contents, 0, length + 1, 1);
        writes(contents, 0, length + 2, 1);
        writes(contents, 0, 0, 1);
        for (slice, by) in [(0, 0), (1, 9), (2, 9), (3, 9), (4, 0), (5, 0), (6, 9), (7, 9)] {
            let mut longer = contents;
            longer[slice] = &words[..contents[slice].len() + 1];
            writes(longer, 0, length, 1);
            writes(longer, 0, length + by, 1);
        }
        for slice in [4, 5] {
            let mut shorter = contents;
            shorter[slice] = &words[..contents[slice].len() - 1];
            writes(shorter, 0, length, 1);
        }
    }
    let zeros = vec![0; 39];
    let least = [&zeros[..], &[], &[], &[], &[0; 177], &[0; 5], &[], &[]];
    for slice in 0..8 {
        let mut bad = least[slice].to_vec();
        bad.resize(bad.len().max(1), 0);
        for place in 0..bad.len() {
            let mut contents = least;
            let word = std::mem::replace(&mut bad[place], P);
            contents[slice] = &bad;
            writes(contents, 0, plain::batch::length(&contents, 0), 2);
            bad[place] = word;
        }
    }
}
