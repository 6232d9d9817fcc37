//! The library and plain Rust side by side, in one run: nanoseconds a call, the best of several runs of each, and the ratio.
//! Both sides are calls of the same shape: words checked, the result handed out through a slice. Then the library on words and rows
//! in Montgomery form beside the library on plain ones.

use std::hint::black_box;
use std::time::Instant;

use compare::plain::batch::{self, FORMS, LENGTHS};
use compare::plain::batched::extend_batched;
use compare::plain::extension::{column::*, AUX_WIDTH, WIDTH};
use compare::plain::{self, Element};
use compare::random::Random;
use tealbobbin::abi;
use tealbobbin::batch::Form;
use tealbobbin::challenges::{Challenges, SampledChallenges};
use tealbobbin::field::P;
use tealbobbin::processor::work_len;

const CHUNK: usize = 4096;

/// Opcodes and how often they stand in a table of usual instructions.
const USUAL: [(u64, u64); 34] = [
    (33, 30), // dup
    (1, 22),  // push
    (3, 14),  // pop
    (17, 12), // pick
    (25, 12), // place
    (41, 10), // swap
    (57, 12), // read_mem
    (11, 8),  // write_mem
    (42, 10), // add
    (65, 10), // addi
    (50, 6),  // mul
    (58, 6),  // eq
    (2, 7),   // skiz
    (49, 8),  // call
    (16, 7),  // return
    (24, 4),  // recurse
    (10, 2),  // assert
    (9, 2),   // divine
    (4, 3),   // split
    (6, 3),   // lt
    (14, 2),  // and
    (22, 1),  // xor
    (12, 1),  // log_2_floor
    (30, 1),  // pow
    (20, 1),  // div_mod
    (18, 1),  // hash
    (44, 1),  // merkle_step_mem
    (34, 1),  // sponge_absorb
    (48, 1),  // sponge_absorb_mem
    (56, 1),  // sponge_squeeze
    (66, 2),  // xx_add
    (74, 2),  // xx_mul
    (80, 2),  // xx_dot_step
    (73, 1),  // read_io
];

/// The instructions with the most entries: sponge_absorb, sponge_squeeze, sponge_absorb_mem and merkle_step_mem.
const COSTLY: [(u64, u64); 4] = [(34, 1), (56, 1), (48, 1), (44, 1)];

type OfOne = fn(u64, &mut [u64]) -> u32;
type OfTwo = fn(u64, u64, &mut [u64]) -> u32;

/// Plain Rust behind the tests that the library makes: 1 for another length, 2 for a word, and 6 where an inverse has none.
macro_rules! tested {
    ($($name:ident($a:ident $(, $b:ident)?) = $value:expr $(, 6 at $zero:literal)?;)*) => { $(
        #[inline(never)]
        fn $name($a: u64, $($b: u64,)? out: &mut [u64]) -> u32 {
            if out.len() != 1 {
                return 1;
            }
            if $a >= P $(|| $b >= P)? {
                return 2;
            }
            $(if $a == $zero {
                return 6;
            })?
            out[0] = $value;
            0
        }
    )* };
}

tested! {
    plain_base_mul(a, b) = plain::mul(a, b);
    plain_base_inverse(a) = plain::inverse(a), 6 at 0;
    plain_to_montgomery(a) = plain::to_montgomery(a);
    plain_from_montgomery(a) = plain::montgomery_mul(a, 1);
    plain_montgomery_mul(a, b) = plain::montgomery_mul(a, b);
    plain_montgomery_inverse(a) = plain::montgomery_inverse(a), 6 at 0;
}

fn element(words: &[u64]) -> Result<Element, u32> {
    let e: Element = words.try_into().map_err(|_| 1u32)?;
    if e.iter().any(|&w| w >= P) {
        return Err(2);
    }
    Ok(e)
}

#[inline(never)]
fn plain_element_mul(a: &[u64], b: &[u64], out: &mut [u64]) -> u32 {
    let (a, b) = match (element(a), element(b)) {
        (Ok(a), Ok(b)) => (a, b),
        (Err(n), _) | (_, Err(n)) => return n,
    };
    if out.len() != 3 {
        return 1;
    }
    out.copy_from_slice(&plain::element_mul(&a, &b));
    0
}

#[inline(never)]
fn plain_element_inverse(a: &[u64], out: &mut [u64]) -> u32 {
    let a = match element(a) {
        Ok(a) => a,
        Err(n) => return n,
    };
    if out.len() != 3 {
        return 1;
    }
    if a == [0; 3] {
        return 6;
    }
    out.copy_from_slice(&plain::element_inverse(&a));
    0
}

#[inline(never)]
fn plain_decode(row: &[u64], out: &mut [u64]) -> u32 {
    if row.len() != WIDTH || out.len() != 2 {
        return 1;
    }
    if row.iter().any(|&w| w >= P) {
        return 2;
    }
    out.copy_from_slice(&plain::decoded(row[CI], row[NIA]));
    0
}

#[inline(never)]
fn plain_extend(main: &[u64], challenges: &[u64], aux: &mut [u64]) -> u32 {
    if main.len() % WIDTH != 0 || aux.len() != main.len() / WIDTH * AUX_WIDTH || challenges.len() != Challenges::WORDS {
        return 1;
    }
    if main.iter().chain(challenges).any(|&w| w >= P) {
        return 2;
    }
    if extend_batched(main, challenges, aux) {
        0
    } else {
        6
    }
}

/// Random rows with these instructions; one in `every` has a multiplicity.
fn table(random: &mut Random, rows: usize, mix: &[(u64, u64)], every: u64) -> Vec<u64> {
    let opcodes: Vec<u64> = mix.iter().flat_map(|&(opcode, share)| (0..share).map(move |_| opcode)).collect();
    let mut main: Vec<u64> = (0..rows * WIDTH).map(|_| random.word() % P).collect();
    for (index, row) in main.chunks_exact_mut(WIDTH).enumerate() {
        row[CLK] = index as u64;
        row[IS_PADDING] = 0;
        row[CI] = opcodes[random.word() as usize % opcodes.len()];
        row[NIA] = random.word() % 5 + 1;
        row[MULTIPLICITY] = if random.word() % every == 0 { random.word() % 9 + 1 } else { 0 };
    }
    main
}

/// Usual instructions, then halt and a quarter of padding.
fn usual_table(random: &mut Random, rows: usize) -> Vec<u64> {
    let mut main = table(random, rows, &USUAL, 4);
    let table_len = rows / 4 * 3;
    main[(table_len - 1) * WIDTH + CI] = 0;
    plain::pad(&mut main, table_len);
    main
}

type Open = fn(&[u8], [&mut [u64]; 8], &mut [u64]) -> u32;
type Write = fn([&[u64]; 8], Form, &mut [u8]) -> u32;

fn plain_open(bytes: &[u8], slices: [&mut [u64]; 8], counts: &mut [u64]) -> u32 {
    batch::open(bytes, slices, counts).1
}

fn plain_write(slices: [&[u64]; 8], form: Form, bytes: &mut [u8]) -> u32 {
    batch::write(slices, form, 0, bytes)
}

fn ours_write(slices: [&[u64]; 8], form: Form, bytes: &mut [u8]) -> u32 {
    abi::write(slices, form as u64, 0, bytes)
}

/// What a batch brings.
struct Contents([Vec<u64>; 8]);

/// With this many rows, differences of each kind, and words of input and of output.
fn contents(random: &mut Random, rows: usize, differences: usize, words: usize) -> Contents {
    let lengths = [rows * WIDTH, differences, differences, differences, SampledChallenges::WORDS, 5, words, words];
    Contents(lengths.map(|length| (0..length).map(|_| random.word() % P).collect()))
}

impl Contents {
    fn slices(&self) -> [&[u64]; 8] {
        self.0.each_ref().map(Vec::as_slice)
    }

    /// The bytes of its batch.
    fn length(&self) -> usize {
        batch::length(&self.slices(), 0)
    }

    /// 200 calls that open it, with rows in this form.
    fn opens(&self, form: Form, open: Open) -> impl FnMut() {
        let mut bytes = vec![0; self.length()];
        assert_eq!(batch::write(self.slices(), form, 0, &mut bytes), 0);
        let mut lent = LENGTHS.map(|length| vec![0; length]);
        move || {
            for _ in 0..200 {
                let [slices @ .., counts] = lent.each_mut().map(Vec::as_mut_slice);
                assert_eq!(open(black_box(&bytes), slices, counts), 0);
            }
        }
    }

    /// 200 calls that write it in this form.
    fn writes(&self, form: Form, write: Write) -> impl FnMut() + '_ {
        let mut bytes = vec![0; self.length()];
        move || {
            for _ in 0..200 {
                assert_eq!(write(black_box(self.slices()), form, &mut bytes), 0);
            }
        }
    }
}

/// The best time of `runs` runs, in nanoseconds a call.
fn time(runs: u32, calls: usize, mut run: impl FnMut()) -> f64 {
    (0..runs)
        .map(|_| {
            let began = Instant::now();
            run();
            began.elapsed().as_secs_f64() * 1e9 / calls as f64
        })
        .fold(f64::INFINITY, f64::min)
}

/// Runs the two sides in turn, so that both meet the machine in the same mood.
fn side_by_side(name: &str, calls: usize, mut ours: impl FnMut(), mut plainly: impl FnMut()) {
    let (mut best, mut best_plain) = (f64::INFINITY, f64::INFINITY);
    for _ in 0..9 {
        best = best.min(time(1, calls, &mut ours));
        best_plain = best_plain.min(time(1, calls, &mut plainly));
    }
    println!("{name:<34} {best:>10.2} {best_plain:>10.2} {:>8.2}", best / best_plain);
}

fn main() {
    let mut random = Random(7);
    let words: Vec<u64> = (0..4096).map(|_| random.word() % (P - 1) + 1).collect();
    let elements: Vec<Element> = (0..1024).map(|_| [random.word() % P, random.word() % P, random.word() % P]).collect();
    println!("{:<34} {:>10} {:>10} {:>8}", "", "ours, ns", "plain, ns", "ratio");

    let products = |f: OfTwo| {
        let words = words.clone();
        move || {
            let mut out = [0];
            for _ in 0..50 {
                for pair in words.windows(2) {
                    black_box(f(pair[0], pair[1], &mut out));
                }
            }
            black_box(out);
        }
    };
    side_by_side("base product", 50 * 4095, products(abi::base_mul), products(plain_base_mul));

    let chain = |f: OfTwo| {
        let b = words[0];
        move || {
            let mut out = [b];
            for _ in 0..200_000 {
                let a = out[0];
                black_box(f(a, b, &mut out));
            }
            black_box(out);
        }
    };
    side_by_side("base product, a chain", 200_000, chain(abi::base_mul), chain(plain_base_mul));

    let inverses = |f: OfOne| {
        let words = words.clone();
        move || {
            let mut out = [0];
            for &a in &words {
                black_box(f(a, &mut out));
            }
            black_box(out);
        }
    };
    side_by_side("base inverse", 4096, inverses(abi::base_inverse), inverses(plain_base_inverse));

    side_by_side("Montgomery product", 50 * 4095, products(abi::montgomery_mul), products(plain_montgomery_mul));
    side_by_side("Montgomery product, a chain", 200_000, chain(abi::montgomery_mul), chain(plain_montgomery_mul));
    side_by_side("Montgomery inverse", 4096, inverses(abi::montgomery_inverse), inverses(plain_montgomery_inverse));

    const WORDS: usize = 1 << 20;
    let many: Vec<u64> = (0..WORDS).map(|_| random.word() % P).collect();
    let conversions = |f: OfOne| {
        let mut converted = many.clone();
        move || {
            for word in converted.chunks_exact_mut(1) {
                assert_eq!(f(word[0], word), 0);
            }
        }
    };
    side_by_side("to Montgomery form, 2^20 words", WORDS, conversions(abi::to_montgomery), conversions(plain_to_montgomery));
    side_by_side("from Montgomery form, 2^20 words", WORDS, conversions(abi::from_montgomery), conversions(plain_from_montgomery));

    let element_products = |f: fn(&[u64], &[u64], &mut [u64]) -> u32| {
        let elements = elements.clone();
        move || {
            let mut out = [0; 3];
            for _ in 0..50 {
                for pair in elements.windows(2) {
                    black_box(f(&pair[0], &pair[1], &mut out));
                }
            }
            black_box(out);
        }
    };
    side_by_side("element product", 50 * 1023, element_products(abi::element_mul), element_products(plain_element_mul));

    let element_chain = |f: fn(&[u64], &[u64], &mut [u64]) -> u32| {
        let b = elements[0];
        move || {
            let mut out = b;
            for _ in 0..50_000 {
                let a = out;
                black_box(f(&a, &b, &mut out));
            }
            black_box(out);
        }
    };
    side_by_side("element product, a chain", 50_000, element_chain(abi::element_mul), element_chain(plain_element_mul));

    let element_inverses = |f: fn(&[u64], &mut [u64]) -> u32| {
        let elements = elements.clone();
        move || {
            let mut out = [0; 3];
            for a in &elements {
                black_box(f(a, &mut out));
            }
            black_box(out);
        }
    };
    side_by_side("element inverse", 1024, element_inverses(abi::element_inverse), element_inverses(plain_element_inverse));

    let rows = table(&mut random, CHUNK, &USUAL, 4);
    let decodings = |f: fn(&[u64], &mut [u64]) -> u32| {
        let rows = rows.clone();
        move || {
            let mut out = [0; 2];
            for _ in 0..20 {
                for row in rows.chunks_exact(WIDTH) {
                    black_box(f(row, &mut out));
                }
            }
            black_box(out);
        }
    };
    side_by_side("decode a row, usual instructions", 20 * CHUNK, decodings(abi::decode), decodings(plain_decode));

    const ITEMS: usize = 1 << 20;
    type Scan = (&'static str, usize, fn(&mut [u64], usize) -> u32, fn(&mut [u64]), fn(&mut [u64], usize));
    let scans: [Scan; 3] = [
        ("maps", 6, abi::scan_maps, plain::scan_maps, plain::scan_maps_by_chunks),
        ("products", 3, abi::scan_products, plain::scan_products, plain::scan_products_by_chunks),
        ("sums", 3, abi::scan_sums, plain::scan_sums, plain::scan_sums_by_chunks),
    ];
    for (name, width, scan, plainly, by_chunks) in scans {
        let words: Vec<u64> = (0..ITEMS * width).map(|_| random.word() % P).collect();
        let (mut ours, mut plain_words) = (words.clone(), words.clone());
        let once = |ours: &mut Vec<u64>, chunk: usize| {
            black_box(scan(ours, chunk));
        };
        side_by_side(&format!("scan of {name}"), ITEMS, || once(&mut ours, ITEMS), || plainly(&mut plain_words));
        side_by_side(&format!("scan of {name}, 4096 a chunk"), ITEMS, || once(&mut ours, CHUNK), || by_chunks(&mut plain_words, CHUNK));
    }

    let challenges: Vec<u64> = (0..Challenges::WORDS).map(|_| random.word() % P).collect();
    let room = |rows: usize| (vec![0; rows * AUX_WIDTH], vec![0; work_len(rows, CHUNK)]);
    const ROWS: usize = 1 << 16;
    let tables = [
        ("extend a row, usual instructions", usual_table(&mut random, ROWS)),
        ("extend a row, costly instructions", table(&mut random, ROWS, &COSTLY, 1)),
    ];
    for (name, main) in tables {
        let ((mut aux, mut work), (mut plain_aux, _)) = (room(ROWS), room(ROWS));
        let ours = || assert_eq!(abi::extend(&main, &challenges, CHUNK, &mut aux, &mut work), 0);
        side_by_side(name, ROWS, ours, || assert_eq!(plain_extend(&main, &challenges, &mut plain_aux), 0));
        assert!(aux == plain_aux);
    }
    for power in [12, 16, 18, 20] {
        let rows = 1 << power;
        let main = usual_table(&mut random, rows);
        let (mut aux, mut work) = room(rows);
        let best = time(5, rows, || assert_eq!(abi::extend(&main, &challenges, CHUNK, &mut aux, &mut work), 0));
        println!("{:<34} {best:>10.2}", format!("extend a row, 2^{power} rows"));
    }

    for (rows, differences, words) in [(32, 128, 64), (16, 64, 32)] {
        let contents = contents(&mut random, rows, differences, words);
        for form in FORMS {
            let name = if form == Form::Plain { "" } else { ", 0A" };
            let (name, length) = (format!("{name}, {} bytes", contents.length()), contents.length());
            side_by_side(&format!("open a byte{name}"), 200 * length, contents.opens(form, abi::open), contents.opens(form, plain_open));
            side_by_side(&format!("write a byte{name}"), 200 * length, contents.writes(form, ours_write), contents.writes(form, plain_write));
        }
    }

    println!("{:<34} {:>10} {:>10} {:>8}", "", "form, ns", "plain, ns", "ratio");
    side_by_side("product", 50 * 4095, products(abi::montgomery_mul), products(abi::base_mul));
    side_by_side("product, a chain", 200_000, chain(abi::montgomery_mul), chain(abi::base_mul));
    side_by_side("inverse", 4096, inverses(abi::montgomery_inverse), inverses(abi::base_inverse));
    for (rows, differences, words) in [(32, 0, 0), (32, 128, 64), (1, 0, 0)] {
        let contents = contents(&mut random, rows, differences, words);
        let (length, [plain, montgomery]) = (contents.length(), FORMS);
        let [in_form, plainly] = [montgomery, plain].map(|form| contents.opens(form, abi::open));
        side_by_side(&format!("open a byte, {length} bytes"), 200 * length, in_form, plainly);
        let [in_form, plainly] = [montgomery, plain].map(|form| contents.writes(form, ours_write));
        side_by_side(&format!("write a byte, {length} bytes"), 200 * length, in_form, plainly);
    }
}
