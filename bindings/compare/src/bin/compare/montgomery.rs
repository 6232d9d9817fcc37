//! The field's operations in Montgomery form.

use compare::plain;
use compare::random::{Random, EDGES};
use compare::tally::{marks, Tally};
use tealbobbin::abi;
use tealbobbin::field::P;

type OfOne = fn(u64, &mut [u64]) -> u32;
type OfTwo = fn(u64, u64, &mut [u64]) -> u32;

const OF_ONE: [(&str, OfOne); 3] =
    [("to_montgomery", abi::to_montgomery), ("from_montgomery", abi::from_montgomery), ("montgomery_inverse", abi::montgomery_inverse)];
const OF_TWO: [(&str, OfTwo); 2] = [("montgomery_add", abi::montgomery_add), ("montgomery_mul", abi::montgomery_mul)];

/// a·2^64 modulo p, by the machine's own division.
fn shifted(a: u64) -> u64 {
    (((a as u128) << 64) % P as u128) as u64
}

/// The word r, below p, with r·2^64 = x modulo p; that it is one is seen by division.
fn divided(tally: &mut Tally, x: u64, r: u64) -> u64 {
    if r >= P || shifted(r) != x {
        tally.differ(format!("plain Rust: {r} is not {x} / 2^64"));
    }
    r
}

fn of_one(tally: &mut Tally, a: u64) {
    for (operation, (name, call)) in OF_ONE.into_iter().enumerate() {
        let number = if a >= P { 2 } else if operation == 2 && a == 0 { 6 } else { 0 };
        let expected = match operation {
            _ if number != 0 => 0,
            0 => shifted(a),
            1 => divided(tally, a, plain::from_montgomery(a)),
            // r with a·r / 2^64 = 2^64
            _ => {
                let r = plain::montgomery_inverse(a);
                divided(tally, plain::mul_by_division(a, r), shifted(1));
                r
            }
        };
        let mut out = marks(1);
        let got = call(a, &mut out);
        tally.check(name, &[a], &marks(1), (got, &out), number, &[expected]);
    }
}

fn of_two(tally: &mut Tally, a: u64, b: u64) {
    let number = if a >= P || b >= P { 2 } else { 0 };
    for (operation, (name, call)) in OF_TWO.into_iter().enumerate() {
        let expected = match operation {
            _ if number != 0 => 0,
            0 => ((a as u128 + b as u128) % P as u128) as u64,
            _ => divided(tally, plain::mul_by_division(a, b), plain::montgomery_mul(a, b)),
        };
        let mut out = marks(1);
        let got = call(a, b, &mut out);
        tally.check(name, &[a, b], &marks(1), (got, &out), number, &[expected]);
    }
}

/// Another length than one word, over words that would be refused too.
fn lengths(tally: &mut Tally, word: u64) {
    for length in [0, 2, 3, 40] {
        for (name, call) in OF_ONE {
            let mut out = marks(length);
            let got = call(word, &mut out);
            tally.check(name, &[length as u64], &marks(length), (got, &out), 1, &[]);
        }
        for (name, call) in OF_TWO {
            let mut out = marks(length);
            let got = call(word, word, &mut out);
            tally.check(name, &[length as u64], &marks(length), (got, &out), 1, &[]);
        }
    }
}

/// 1 / a modulo 2^64, for odd a: each step doubles how many of its low bits are right.
fn inverse_of_odd(a: u64) -> u64 {
    (0..6).fold(1, |inverse: u64, _| inverse.wrapping_mul(2u64.wrapping_sub(a.wrapping_mul(inverse))))
}

/// Products with an edge word for their low word, for the reduction's quotient, and for their result.
fn edges(tally: &mut Tally, random: &mut Random) {
    for edge in EDGES {
        let odd = (random.word() % P) | 1;
        for low in [edge, edge.wrapping_mul(P)] {
            of_two(tally, odd % P, low.wrapping_mul(inverse_of_odd(odd % P)));
        }
        let a = random.word() % (P - 1) + 1;
        of_two(tally, a, plain::mul(shifted(edge % P), plain::inverse(a)));
    }
}

/// Random words, by plain Rust without a division: both conversions, which lead back, a sum and a product.
fn many(tally: &mut Tally, random: &mut Random, count: u64) {
    let done = |call: &dyn Fn(&mut [u64]) -> u32| {
        let mut out = [0];
        (call(&mut out), out[0])
    };
    for _ in 0..count {
        let (a, b) = (random.word() % P, random.word() % P);
        let converted = plain::to_montgomery(a);
        tally.check_word("to_montgomery", &[a], done(&|out| abi::to_montgomery(a, out)), converted);
        tally.check_word("from_montgomery", &[converted], done(&|out| abi::from_montgomery(converted, out)), a);
        tally.check_word("montgomery_add", &[a, b], done(&|out| abi::montgomery_add(a, b, out)), plain::add(a, b));
        let product = plain::from_montgomery(plain::mul(a, b));
        tally.check_word("montgomery_mul", &[a, b], done(&|out| abi::montgomery_mul(a, b, out)), product);
    }
}

/// All pairs of edge words, edge words inside products, slices of wrong lengths, `count` random operands, and many more in short.
pub fn compare(random: &mut Random, count: u64) -> bool {
    let mut tally = Tally::new("field, Montgomery form");
    for a in EDGES {
        of_one(&mut tally, a);
        EDGES.into_iter().for_each(|b| of_two(&mut tally, a, b));
    }
    for word in [0, 1, P, u64::MAX] {
        lengths(&mut tally, word);
    }
    for _ in 0..count / 30 {
        edges(&mut tally, random);
    }
    for _ in 0..count {
        let (a, b) = (random.any(), random.any());
        of_one(&mut tally, a);
        of_two(&mut tally, a, b);
        of_two(&mut tally, a % P, b % P);
    }
    many(&mut tally, random, 40 * count);
    tally.reached(&[0, 1, 2, 6]);
    tally.report()
}
