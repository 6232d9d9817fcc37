//! Arithmetic modulo [`P`], of plain words and of words in [`Montgomery`] form, and in the field of the p³ elements over it.
//!
//! A word that is not below p is refused, not reduced.

use core::ops::{Add, Mul};
use core::slice::from_mut;

use crate::{abi, answer, Refusal};

/// p = 2^64 - 2^32 + 1: a base element is a word below it.
pub const P: u64 = 18446744069414584321;

/// c0 + c1·X + c2·X² modulo X³ - X + 1, from its three coefficients.
#[derive(Debug, Clone, Copy, Default, PartialEq, Eq, Hash)]
#[repr(transparent)]
pub struct Element(pub [u64; 3]);

impl Element {
    /// 0.
    pub const ZERO: Element = Element([0, 0, 0]);

    /// 1.
    pub const ONE: Element = Element([1, 0, 0]);

    /// X.
    pub const X: Element = Element([0, 1, 0]);
}

/// The base element as an element.
impl From<u64> for Element {
    fn from(word: u64) -> Element {
        Element([word, 0, 0])
    }
}

macro_rules! of_two_words {
    ($($(#[$meaning:meta])* $name:ident),* $(,)?) => { $(
        $(#[$meaning])*
        ///
        /// # Errors
        ///
        /// [`Refusal::WordNotBelowP`].
        pub fn $name(a: u64, b: u64) -> Result<u64, Refusal> {
            let mut out = 0;
            let number = abi::$name(a, b, from_mut(&mut out));
            answer(number, out)
        }
    )* };
}

macro_rules! of_two_elements {
    ($($(#[$meaning:meta])* $name:ident),* $(,)?) => { $(
        $(#[$meaning])*
        ///
        /// # Errors
        ///
        /// [`Refusal::WordNotBelowP`].
        pub fn $name(a: &Element, b: &Element) -> Result<Element, Refusal> {
            let mut out = Element::ZERO;
            let number = abi::$name(&a.0, &b.0, &mut out.0);
            answer(number, out)
        }
    )* };
}

of_two_words! {
    /// a + b modulo p.
    base_add,
    /// a - b modulo p.
    base_sub,
    /// a·b modulo p.
    base_mul,
}

of_two_elements! {
    /// a + b.
    element_add,
    /// a - b.
    element_sub,
    /// a·b.
    element_mul,
}

/// The b with a·b = 1 modulo p.
///
/// # Errors
///
/// [`Refusal::WordNotBelowP`], then [`Refusal::ZeroDenominator`] on zero.
pub fn base_inverse(a: u64) -> Result<u64, Refusal> {
    let mut out = 0;
    let number = abi::base_inverse(a, from_mut(&mut out));
    answer(number, out)
}

/// A base element in Montgomery form, as the prover keeps it: v is the word v·2^64 modulo p, which is below p.
///
/// Everything else in this crate takes plain words, as `u64`. What goes from one to the other says so: a plain word by
/// [`from_plain`](Montgomery::from_plain) and [`to_plain`](Montgomery::to_plain), a word in the form, as a dump has it, by
/// [`from_word`](Montgomery::from_word) and [`word`](Montgomery::word).
///
/// ```
/// use tealbobbin::field::{base_inverse, Montgomery};
///
/// let (three, five) = (Montgomery::from_plain(3)?, Montgomery::from_plain(5)?);
/// assert_eq!((three + five).to_plain(), 8);
/// assert_eq!((three * five).to_plain(), 15);
/// assert_eq!(three.inverse()?.to_plain(), base_inverse(3)?);
/// assert_eq!(three * three.inverse()?, Montgomery::ONE);
///
/// assert_eq!(Montgomery::ONE.word(), 4294967295);
/// assert_eq!(Montgomery::from_word(three.word())?, three);
/// # Ok::<(), tealbobbin::Refusal>(())
/// ```
#[derive(Debug, Clone, Copy, Default, PartialEq, Eq, Hash)]
#[repr(transparent)]
pub struct Montgomery(u64);

impl Montgomery {
    /// 0.
    pub const ZERO: Montgomery = Montgomery(0);

    /// 1.
    pub const ONE: Montgomery = Montgomery(4294967295);

    /// The plain word, in the form.
    ///
    /// # Errors
    ///
    /// [`Refusal::WordNotBelowP`].
    pub fn from_plain(plain: u64) -> Result<Montgomery, Refusal> {
        let mut out = 0;
        let number = abi::to_montgomery(plain, from_mut(&mut out));
        answer(number, Montgomery(out))
    }

    /// The plain word.
    pub fn to_plain(self) -> u64 {
        written(|out| abi::from_montgomery(self.0, out))
    }

    /// A word that is in the form already.
    ///
    /// # Errors
    ///
    /// [`Refusal::WordNotBelowP`].
    pub const fn from_word(word: u64) -> Result<Montgomery, Refusal> {
        if word < P {
            Ok(Montgomery(word))
        } else {
            Err(Refusal::WordNotBelowP)
        }
    }

    /// The word in the form.
    pub const fn word(self) -> u64 {
        self.0
    }

    /// The one that gives 1 times this one.
    ///
    /// # Errors
    ///
    /// [`Refusal::ZeroDenominator`] on zero.
    pub fn inverse(self) -> Result<Montgomery, Refusal> {
        let mut out = 0;
        let number = abi::montgomery_inverse(self.0, from_mut(&mut out));
        answer(number, Montgomery(out))
    }
}

/// What the call writes, which refuses no word below p.
fn written(call: impl FnOnce(&mut [u64]) -> u32) -> u64 {
    let mut out = 0;
    let number = call(from_mut(&mut out));
    debug_assert_eq!(number, 0);
    out
}

impl Add for Montgomery {
    type Output = Montgomery;

    fn add(self, other: Montgomery) -> Montgomery {
        Montgomery(written(|out| abi::montgomery_add(self.0, other.0, out)))
    }
}

impl Mul for Montgomery {
    type Output = Montgomery;

    fn mul(self, other: Montgomery) -> Montgomery {
        Montgomery(written(|out| abi::montgomery_mul(self.0, other.0, out)))
    }
}

/// A base element times an element.
///
/// # Errors
///
/// [`Refusal::WordNotBelowP`].
pub fn element_scale(k: u64, a: &Element) -> Result<Element, Refusal> {
    let mut out = Element::ZERO;
    let number = abi::element_scale(k, &a.0, &mut out.0);
    answer(number, out)
}

/// The b with a·b = 1.
///
/// ```
/// use tealbobbin::field::{element_inverse, Element, P};
///
/// // X·(1 - X²) = X - X³ = 1
/// assert_eq!(element_inverse(&Element::X), Ok(Element([1, 0, P - 1])));
/// ```
///
/// # Errors
///
/// [`Refusal::WordNotBelowP`], then [`Refusal::ZeroDenominator`] on zero.
pub fn element_inverse(a: &Element) -> Result<Element, Refusal> {
    let mut out = Element::ZERO;
    let number = abi::element_inverse(&a.0, &mut out.0);
    answer(number, out)
}

#[cfg(test)]
mod tests {
    use super::*;

    #[test]
    fn of_words() {
        assert_eq!(base_add(P - 1, 3), Ok(2));
        assert_eq!(base_sub(1, 3), Ok(P - 2));
        assert_eq!(base_mul(1 << 32, 1 << 32), Ok((1 << 32) - 1));
        assert_eq!(base_inverse(2), Ok(9223372034707292161));
        assert_eq!(base_inverse(0), Err(Refusal::ZeroDenominator));
        assert_eq!(base_add(P, 0), Err(Refusal::WordNotBelowP));
    }

    #[test]
    fn in_montgomery_form() {
        let words = [0, 1, 2, (1 << 32) - 1, 1 << 32, P / 2, P - 2, P - 1];
        for a in words {
            let x = Montgomery::from_plain(a).unwrap();
            assert_eq!(Ok(x.word()), base_mul(a, (1 << 32) - 1));
            assert_eq!(x.to_plain(), a);
            assert_eq!(Montgomery::from_word(x.word()), Ok(x));
            assert_eq!(x.inverse().map(Montgomery::to_plain), base_inverse(a));
            for b in words {
                let y = Montgomery::from_plain(b).unwrap();
                assert_eq!(Ok((x + y).to_plain()), base_add(a, b));
                assert_eq!(Ok((x * y).to_plain()), base_mul(a, b));
            }
        }
        assert_eq!([0, 1].map(Montgomery::from_plain), [Ok(Montgomery::ZERO), Ok(Montgomery::ONE)]);
        assert_eq!(Montgomery::ZERO.inverse(), Err(Refusal::ZeroDenominator));
        for word in [P, P + 1, u64::MAX] {
            assert_eq!(Montgomery::from_plain(word), Err(Refusal::WordNotBelowP));
            assert_eq!(Montgomery::from_word(word), Err(Refusal::WordNotBelowP));
        }
    }

    #[test]
    fn of_elements() {
        let (a, b) = (Element([1, 2, 3]), Element([4, 5, P - 1]));
        assert_eq!(element_add(&a, &b), Ok(Element([5, 7, 2])));
        assert_eq!(element_sub(&a, &b), Ok(Element([P - 3, P - 3, 4])));
        assert_eq!(element_scale(2, &b), Ok(Element([8, 10, P - 2])));
        let square = element_mul(&Element::X, &Element::X).unwrap();
        assert_eq!(element_mul(&Element::X, &square), Ok(Element([P - 1, 1, 0])));
        assert_eq!(element_mul(&Element::ONE, &b), Ok(b));
        assert_eq!(element_inverse(&Element::ZERO), Err(Refusal::ZeroDenominator));
        assert_eq!(element_scale(P, &a), Err(Refusal::WordNotBelowP));
        assert_eq!(Element::from(7), Element([7, 0, 0]));
    }
}
