//! The field's operations.

use compare::plain::{self, Element};
use compare::random::{Random, EDGES};
use compare::tally::{marks, Tally};
use tealbobbin::abi;
use tealbobbin::field::P;

/// 2 if a word is not below p.
fn number_of(words: &[u64]) -> u32 {
    if words.iter().any(|&w| w >= P) {
        2
    } else {
        0
    }
}

fn base(tally: &mut Tally, a: u64, b: u64) {
    type Call = fn(u64, u64, &mut [u64]) -> u32;
    type Plain = fn(u64, u64) -> u64;
    let number = number_of(&[a, b]);
    let operations: [(&str, Call, Plain); 3] = [
        ("base_add", abi::base_add, |a, b| ((a as u128 + b as u128) % P as u128) as u64),
        ("base_sub", abi::base_sub, |a, b| ((a as u128 + P as u128 - b as u128) % P as u128) as u64),
        ("base_mul", abi::base_mul, plain::mul_by_division),
    ];
    for (name, call, plainly) in operations {
        let mut out = marks(1);
        let got = call(a, b, &mut out);
        let expected = if number == 0 { plainly(a, b) } else { 0 };
        tally.check(name, &[a, b], &marks(1), (got, &out), number, &[expected]);
    }
}

fn base_inverse(tally: &mut Tally, a: u64) {
    let number = if a >= P { 2 } else if a == 0 { 6 } else { 0 };
    let mut out = marks(1);
    let got = abi::base_inverse(a, &mut out);
    tally.check("base_inverse", &[a], &marks(1), (got, &out), number, &[plain::inverse(a % P)]);
    if got == 0 && plain::mul_by_division(a, out[0]) != 1 {
        tally.differ(format!("base_inverse {a}: {} is no inverse", out[0]));
    }
}

fn element(tally: &mut Tally, a: &Element, b: &Element, k: u64) {
    type Call = fn(&[u64], &[u64], &mut [u64]) -> u32;
    type Plain = fn(&Element, &Element) -> Element;
    let both = [a.as_slice(), b.as_slice()].concat();
    let number = number_of(&both);
    let operations: [(&str, Call, Plain); 3] = [
        ("element_add", abi::element_add, plain::element_add),
        ("element_sub", abi::element_sub, plain::element_sub),
        ("element_mul", abi::element_mul, plain::element_mul),
    ];
    for (name, call, plainly) in operations {
        let mut out = marks(3);
        let got = call(a, b, &mut out);
        let expected = if number == 0 { plainly(a, b) } else { [0; 3] };
        tally.check(name, &both, &marks(3), (got, &out), number, &expected);
    }

    let scaled = [&[k], a.as_slice()].concat();
    let number = number_of(&scaled);
    let mut out = marks(3);
    let got = abi::element_scale(k, a, &mut out);
    let expected = if number == 0 { plain::element_scale(k, a) } else { [0; 3] };
    tally.check("element_scale", &scaled, &marks(3), (got, &out), number, &expected);

    let number = if number_of(a) != 0 { 2 } else if *a == [0; 3] { 6 } else { 0 };
    let mut out = marks(3);
    let got = abi::element_inverse(a, &mut out);
    let expected = if number == 0 { plain::element_inverse(a) } else { [0; 3] };
    tally.check("element_inverse", a, &marks(3), (got, &out), number, &expected);
    if got == 0 && plain::element_mul(a, &[out[0], out[1], out[2]]) != [1, 0, 0] {
        tally.differ(format!("element_inverse {a:?}: {out:?} is no inverse"));
    }
}

/// Slices of every length from 0 to 4 in every place, over words that would be refused too.
fn lengths(tally: &mut Tally, word: u64) {
    let words = [word; 4];
    for out_length in 0..5 {
        for (name, call) in [
            ("base_add", abi::base_add as fn(u64, u64, &mut [u64]) -> u32),
            ("base_sub", abi::base_sub),
            ("base_mul", abi::base_mul),
        ] {
            if out_length != 1 {
                let mut out = marks(out_length);
                let got = call(word, word, &mut out);
                tally.check(name, &[out_length as u64], &marks(out_length), (got, &out), 1, &[]);
            }
        }
        if out_length != 1 {
            let mut out = marks(out_length);
            let got = abi::base_inverse(word, &mut out);
            tally.check("base_inverse", &[out_length as u64], &marks(out_length), (got, &out), 1, &[]);
        }
        for a in 0..5 {
            if (a, out_length) != (3, 3) {
                let shape = [a as u64, out_length as u64];
                let mut out = marks(out_length);
                let got = abi::element_scale(word, &words[..a], &mut out);
                tally.check("element_scale", &shape, &marks(out_length), (got, &out), 1, &[]);
                let mut out = marks(out_length);
                let got = abi::element_inverse(&words[..a], &mut out);
                tally.check("element_inverse", &shape, &marks(out_length), (got, &out), 1, &[]);
            }
            for b in 0..5 {
                if (a, b, out_length) == (3, 3, 3) {
                    continue;
                }
                for (name, call) in [
                    ("element_add", abi::element_add as fn(&[u64], &[u64], &mut [u64]) -> u32),
                    ("element_sub", abi::element_sub),
                    ("element_mul", abi::element_mul),
                ] {
                    let mut out = marks(out_length);
                    let got = call(&words[..a], &words[..b], &mut out);
                    tally.check(name, &[a as u64, b as u64, out_length as u64], &marks(out_length), (got, &out), 1, &[]);
                }
            }
        }
    }
}

/// All pairs and triples of edge words, slices of wrong lengths, and `count` random operands.
pub fn compare(random: &mut Random, count: u64) -> bool {
    let mut tally = Tally::new("field");
    for a in EDGES {
        base_inverse(&mut tally, a);
        for b in EDGES {
            base(&mut tally, a, b);
            for c in EDGES {
                element(&mut tally, &[a, b, c], &[c, a, b], b);
                element(&mut tally, &[c, b, a], &[a, a, c], c);
            }
        }
    }
    for word in [0, 1, P, u64::MAX] {
        lengths(&mut tally, word);
    }
    for _ in 0..count {
        let (a, b) = (random.any(), random.any());
        base(&mut tally, a, b);
        base(&mut tally, a % P, b % P);
        base_inverse(&mut tally, a);
        let (x, y) = ([random.base(), random.base(), random.base()], [random.base(), random.base(), random.base()]);
        element(&mut tally, &x, &y, a);
    }
    tally.report()
}
