//! What the library is compared with, and what the comparisons share.

pub mod builder;
pub mod checks;
pub mod extensions;
pub mod plain;
pub mod random;
pub mod rows;
pub mod tally;
