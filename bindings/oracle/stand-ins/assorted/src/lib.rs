//! What the original uses of arbitrary, get-size2, itertools, lazy_static, num-traits, serde, strum and
//! thiserror. A crate names this one after each of them: `extern crate assorted as strum;`.

mod arbitrary;
mod itertools;
mod num_traits;

pub use arbitrary::*;
pub use derives::*;
pub use itertools::*;
pub use num_traits::*;

/// The number of an enum's variants.
pub trait EnumCount {
    const COUNT: usize;
}

/// An enum's variants in order.
pub trait IntoEnumIterator: Sized {
    fn iter() -> std::vec::IntoIter<Self>;
}

#[macro_export]
macro_rules! lazy_static {
    ($visibility:vis static ref $name:ident : $kind:ty = $value:expr;) => {
        $visibility static $name: std::sync::LazyLock<$kind> = std::sync::LazyLock::new(|| $value);
    };
}
