//! The scans.

use compare::plain;
use compare::random::Random;
use compare::tally::Tally;
use tealbobbin::abi;
use tealbobbin::field::P;
use tealbobbin::processor::MAX_ROWS;

type Call = fn(&mut [u64], usize) -> u32;
type Plain = fn(&mut [u64]);

/// Name, words an item, the library's scan and the plain one.
const SCANS: [(&str, usize, Call, Plain); 3] = [
    ("scan_maps", 6, abi::scan_maps, plain::scan_maps),
    ("scan_products", 3, abi::scan_products, plain::scan_products),
    ("scan_sums", 3, abi::scan_sums, plain::scan_sums),
];

fn check(tally: &mut Tally, scan: &(&str, usize, Call, Plain), before: &[u64], chunk: usize) {
    let (name, width, call, plainly) = *scan;
    let number = if before.len() % width != 0 || before.len() / width > MAX_ROWS {
        1
    } else if chunk == 0 {
        5
    } else if before.iter().any(|&w| w >= P) {
        2
    } else {
        0
    };
    let mut expected = before.to_vec();
    if number == 0 {
        plainly(&mut expected);
    }
    let mut words = before.to_vec();
    let got = call(&mut words, chunk);
    tally.check(name, &[before.len() as u64, chunk as u64], before, (got, &words), number, &expected);
}

/// Every length up to 40 items with every chunk length around it; lengths that are no whole items; a bad word in every place; long inputs.
pub fn compare(random: &mut Random, count: u64) -> bool {
    let mut tally = Tally::new("scans");
    for scan in &SCANS {
        let width = scan.1;
        for items in 0..40 {
            let words: Vec<u64> = (0..items * width).map(|_| random.base()).collect();
            for chunk in (0..items + 3).chain([64, 1 << 20, usize::MAX / 2, usize::MAX]) {
                check(&mut tally, scan, &words, chunk);
            }
        }
        for length in 0..64 {
            let words: Vec<u64> = (0..length).map(|_| random.any()).collect();
            for chunk in [0, 1, 2, 3, usize::MAX] {
                check(&mut tally, scan, &words, chunk);
            }
        }
        for place in 0..10 * width {
            for bad in [P, P + 1, u64::MAX] {
                let mut words: Vec<u64> = (0..10 * width).map(|_| random.base()).collect();
                words[place] = bad;
                for chunk in [0, 1, 3, 10, 11] {
                    check(&mut tally, scan, &words, chunk);
                }
            }
        }
        for _ in 0..count {
            let items = random.word() as usize % 300;
            let words: Vec<u64> = (0..items * width).map(|_| random.base()).collect();
            let chunk = random.word() as usize % (items + 2) + 1;
            check(&mut tally, scan, &words, chunk);
        }
        for (items, chunk) in [(MAX_ROWS, 4096), (MAX_ROWS, 0), (MAX_ROWS + 1, 4096), (MAX_ROWS + 1, 0)] {
            let words: Vec<u64> = (0..items * width).map(|_| random.base()).collect();
            check(&mut tally, scan, &words, chunk);
        }
    }
    tally.report()
}
