//! Tip5's byte table, and digests.

use crate::prelude::BFieldElement;

/// The number of words that a sponge absorbs or squeezes at once.
pub const RATE: usize = 10;

/// Entry i is (i + 1)³ - 1 modulo 257.
pub const LOOKUP_TABLE: [u8; 256] = {
    let mut table = [0; 256];
    let mut i = 0;
    while i < 256 {
        table[i] = (((i + 1) * (i + 1) * (i + 1) - 1) % 257) as u8;
        i += 1;
    }
    table
};

#[derive(Debug, Copy, Clone, Eq, PartialEq, Hash)]
pub struct Digest(pub [BFieldElement; Digest::LEN]);

impl Digest {
    pub const LEN: usize = 5;

    pub fn values(self) -> [BFieldElement; Digest::LEN] {
        self.0
    }
}
