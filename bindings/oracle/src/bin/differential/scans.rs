//! The scans.

use compare::extensions::any_chunk;
use compare::random::Random;
use compare::tally::Tally;
use tealbobbin::abi;

use crate::words;

type Scan = (&'static str, usize, fn(&mut [u64], usize) -> u32, fn(&[u64]) -> Vec<u64>);

const SCANS: [Scan; 3] = [
    ("scan_maps", 6, abi::scan_maps, oracle::scan_maps),
    ("scan_products", 3, abi::scan_products, oracle::scan_products),
    ("scan_sums", 3, abi::scan_sums, oracle::scan_sums),
];

/// Up to 300 items, and numbers of items around the original's own chunks, at chunk lengths of every kind.
pub fn compare(random: &mut Random, count: u64) -> bool {
    let mut tally = Tally::new("scans");
    let tall = [1023, 1024, 1025, 2048, 4096, 4097, 5000, 65_536];
    for (name, width, scan, original) in SCANS {
        let short = (0..count).map(|i| i as usize % 300);
        for items in short.chain(tall) {
            let before = words(random, items * width);
            let chunk = any_chunk(random, items);
            let mut after = before.clone();
            let got = scan(&mut after, chunk);
            tally.check(name, &[items as u64, chunk as u64], &before, (got, &after), 0, &original(&before));
        }
    }
    tally.report()
}
