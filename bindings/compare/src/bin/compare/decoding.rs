//! Decoding.

use compare::plain;
use compare::plain::extension::column::{CI, NIA};
use compare::random::{Random, EDGES};
use compare::tally::{marks, Tally, DECODED};
use tealbobbin::abi;
use tealbobbin::field::P;
use tealbobbin::processor::MAIN_WIDTH;

fn row(tally: &mut Tally, words: &[u64], out_length: usize) {
    let number = if out_length != 2 || words.len() != MAIN_WIDTH {
        1
    } else if words.iter().any(|&w| w >= P) {
        2
    } else {
        0
    };
    let expected = if number == 0 { plain::decoded(words[CI], words[NIA]) } else { [0, 0] };
    if number == 0 {
        tally.count(expected[0] as usize);
    }
    let mut out = marks(out_length);
    let got = abi::decode(words, &mut out);
    let shown = if words.len() > NIA { &words[CI..=NIA] } else { words };
    tally.check("decode", shown, &marks(out_length), (got, &out), number, &expected);
}

/// The words 0 to 300, 0 to 255 with a higher bit set, and words near p and at edges; with the arguments 0 to 20, these with 2^32
/// added, and others near p and at edges; rows of other lengths; a word that is not below p in every place.
pub fn compare(random: &mut Random, count: u64) -> bool {
    let mut tally = Tally::of_kinds("decode", &DECODED);
    let higher = [8, 16, 31, 32, 33, 40, 63].into_iter().flat_map(|bit| (0..=255).map(move |word| (1 << bit) + word));
    let opcodes: Vec<u64> = (0..=300).chain(higher).chain((0..100).map(|d| P - 1 - d)).chain(EDGES).collect();
    let arguments: Vec<u64> = (0..=20).chain((0..=20).map(|d| (1 << 32) + d)).chain((0..8).map(|d| P - 1 - d)).chain(EDGES).collect();
    for &ci in &opcodes {
        for &nia in &arguments {
            let mut words: Vec<u64> = (0..MAIN_WIDTH).map(|_| random.base()).collect();
            words[CI] = ci;
            words[NIA] = nia;
            row(&mut tally, &words, 2);
        }
    }
    for length in 0..80 {
        for out_length in 0..5 {
            row(&mut tally, &vec![73; length], out_length);
            row(&mut tally, &vec![P; length], out_length);
        }
    }
    for place in 0..MAIN_WIDTH {
        for bad in [P, u64::MAX] {
            let mut words = vec![2; MAIN_WIDTH];
            words[place] = bad;
            row(&mut tally, &words, 2);
        }
    }
    for _ in 0..count {
        let mut words: Vec<u64> = (0..MAIN_WIDTH).map(|_| random.base()).collect();
        words[CI] = random.word() % 100;
        words[NIA] = random.word() % 20;
        row(&mut tally, &words, 2);
    }
    tally.reached(&[0, 1, 2]);
    tally.report()
}
