//! Seeded random words, and the words at which arithmetic goes wrong.

use tealbobbin::field::P;

/// SplitMix64.
pub struct Random(pub u64);

impl Random {
    pub fn word(&mut self) -> u64 {
        self.0 = self.0.wrapping_add(0x9e37_79b9_7f4a_7c15);
        let mut z = self.0;
        z = (z ^ (z >> 30)).wrapping_mul(0xbf58_476d_1ce4_e5b9);
        z = (z ^ (z >> 27)).wrapping_mul(0x94d0_49bb_1331_11eb);
        z ^ (z >> 31)
    }

    /// A word below p; one in eight is an edge word.
    pub fn base(&mut self) -> u64 {
        if self.word() % 8 == 0 {
            let edge = self.edge();
            if edge < P {
                return edge;
            }
        }
        self.word() % P
    }

    /// Any word; one in eight is an edge word, some of those not below p.
    pub fn any(&mut self) -> u64 {
        if self.word() % 8 == 0 {
            self.edge()
        } else {
            self.word()
        }
    }

    pub fn edge(&mut self) -> u64 {
        EDGES[self.word() as usize % EDGES.len()]
    }
}

pub const EDGES: [u64; 16] = [
    0,
    1,
    2,
    (1 << 32) - 2,
    (1 << 32) - 1,
    1 << 32,
    (1 << 32) + 1,
    1 << 63,
    (P - 1) / 2,
    (P - 1) / 2 + 1,
    P - (1 << 32),
    P - 2,
    P - 1,
    P,
    P + 1,
    u64::MAX,
];
