//! The field by document 01's meanings: words modulo p = 2^64 - 2^32 + 1, and elements over them modulo X³ - X + 1.

extern crate assorted as num_traits;

mod base;
mod extension;
pub mod tip5;

pub mod prelude {
    pub use crate::base::BFieldElement;
    pub use crate::extension::XFieldElement;
    pub use crate::math::traits::FiniteField;
    pub use crate::tip5::Digest;
    pub use crate::{bfe, tip5, xfe};
}

pub mod math {
    pub mod traits {
        pub use crate::extension::FiniteField;
    }

    pub mod x_field_element {
        pub const EXTENSION_DEGREE: usize = 3;
    }
}

pub mod memory {
    /// Asks for nothing.
    pub fn advise_huge_pages<T>(_: &mut [T]) {}
}

#[macro_export]
macro_rules! bfe {
    ($value:expr) => {
        $crate::prelude::BFieldElement::from($value)
    };
}

#[macro_export]
macro_rules! xfe {
    ($value:expr) => {
        $crate::prelude::XFieldElement::from($value)
    };
}
