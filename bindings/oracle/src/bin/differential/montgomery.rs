//! Words and rows as the original keeps them, in Montgomery form.

use compare::builder::Builder;
use compare::plain::batch::LENGTHS;
use compare::random::{EDGES, Random};
use compare::tally::{Tally, marks};
use oracle::{MAIN_WIDTH, Trace};
use tealbobbin::abi;
use tealbobbin::batch::Form;
use tealbobbin::field::P;

use crate::words;

/// Both conversions and the arithmetic. A panic is 6.
fn of_words(tally: &mut Tally, a: u64, b: u64) {
    let inverse = oracle::kept_inverse(a);
    type Call<'a> = &'a dyn Fn(&mut [u64]) -> u32;
    let calls: [(&str, Call, u32, u64); 5] = [
        ("to_montgomery", &|out| abi::to_montgomery(a, out), 0, oracle::kept(a)),
        ("from_montgomery", &|out| abi::from_montgomery(a, out), 0, oracle::plain(a)),
        ("montgomery_add", &|out| abi::montgomery_add(a, b, out), 0, oracle::kept_sum(a, b)),
        ("montgomery_mul", &|out| abi::montgomery_mul(a, b, out), 0, oracle::kept_product(a, b)),
        ("montgomery_inverse", &|out| abi::montgomery_inverse(a, out), if inverse.is_ok() { 0 } else { 6 }, inverse.unwrap_or(0)),
    ];
    for (name, call, number, expected) in calls {
        let mut out = marks(1);
        let got = call(&mut out);
        tally.check(name, &[a, b], &marks(1), (got, &out), number, &[expected]);
    }
}

/// A trace that the original dumps is opened, from a batch, to its plain words.
fn dump(tally: &mut Tally, random: &mut Random, rows: usize) {
    let trace = words(random, rows * MAIN_WIDTH);
    let mut batch = Builder::default();
    batch.rows(rows as u32).digest(&[0; 5]).sampled(&[2; 177]);
    for row in Trace::new(&trace).dump() {
        batch.row_as_sent(Form::Montgomery, &row);
    }
    let mut lent = LENGTHS.map(marks);
    let [slices @ .., counts] = lent.each_mut().map(Vec::as_mut_slice);
    let got = abi::open(&batch.end().bytes(), slices, counts);
    tally.rows += rows as u64;
    tally.check("open", &[rows as u64], &marks(trace.len()), (got, &lent[0][..trace.len()]), 0, &trace);
}

/// Edge words in pairs, `count` random ones, and a quarter as many dumped traces of up to 32 rows.
pub fn compare(random: &mut Random, count: u64) -> bool {
    let mut tally = Tally::new("Montgomery form");
    let below = EDGES.into_iter().filter(|&word| word < P);
    for a in below.clone() {
        below.clone().for_each(|b| of_words(&mut tally, a, b));
    }
    for _ in 0..count {
        of_words(&mut tally, random.base(), random.base());
    }
    for trace in 0..count / 4 {
        dump(&mut tally, random, 1 + trace as usize % 32);
    }
    tally.reached(&[0, 6]);
    tally.report()
}
