//! Prefix scans in place, by chunks of any positive length: the result is the same at each.
//!
//! On one thread the fewest steps are those of one chunk, at a chunk length no smaller than the number of items.
//!
//! ```
//! use tealbobbin::field::Element;
//! use tealbobbin::running_arguments::{scan_maps, scan_products, AffineMap};
//!
//! let mut factors = [2, 3, 5].map(Element::from);
//! scan_products(&mut factors, 2)?;
//! assert_eq!(factors, [2, 6, 30].map(Element::from));
//!
//! // r → 10·r + 7, then r → 10·r + 5
//! let mut maps = [7, 5].map(|word| AffineMap { a: Element::from(10), b: Element::from(word) });
//! scan_maps(&mut maps, 2)?;
//! assert_eq!(maps[1], AffineMap { a: Element::from(100), b: Element::from(75) });
//! # Ok::<(), tealbobbin::Refusal>(())
//! ```
//!
//! # Errors
//!
//! Each scan gives [`Refusal::SliceLength`] if the items are over [`MAX_ROWS`](crate::processor::MAX_ROWS), then
//! [`Refusal::ChunkLengthZero`], then [`Refusal::WordNotBelowP`].

use crate::abi::{self, words_mut};
use crate::field::Element;
use crate::{answer, Refusal};

/// The map r → a·r + b.
#[derive(Debug, Clone, Copy, PartialEq, Eq, Hash)]
#[repr(C)]
pub struct AffineMap {
    /// What r is multiplied with.
    pub a: Element,
    /// What is added.
    pub b: Element,
}

/// Each map becomes the one that applies those up to it, first to last.
///
/// # Errors
///
/// [As the module says.](self#errors)
pub fn scan_maps(items: &mut [AffineMap], chunk: usize) -> Result<(), Refusal> {
    answer(abi::scan_maps(words_mut(items), chunk), ())
}

/// Each element becomes the product of those up to it.
///
/// # Errors
///
/// [As the module says.](self#errors)
pub fn scan_products(items: &mut [Element], chunk: usize) -> Result<(), Refusal> {
    answer(abi::scan_products(words_mut(items), chunk), ())
}

/// Each element becomes the sum of those up to it.
///
/// # Errors
///
/// [As the module says.](self#errors)
pub fn scan_sums(items: &mut [Element], chunk: usize) -> Result<(), Refusal> {
    answer(abi::scan_sums(words_mut(items), chunk), ())
}

#[cfg(test)]
mod tests {
    use super::*;

    #[test]
    fn sums() {
        let mut items = [Element([1, 2, 3]), Element([4, 5, 6]), Element([7, 8, 9])];
        assert_eq!(scan_sums(&mut items, 0), Err(Refusal::ChunkLengthZero));
        assert_eq!(scan_sums(&mut items, 2), Ok(()));
        assert_eq!(items, [Element([1, 2, 3]), Element([5, 7, 9]), Element([12, 15, 18])]);
        assert_eq!(scan_sums(&mut [], 1), Ok(()));
    }
}
