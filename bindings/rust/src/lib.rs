//! The processor table of a Triton VM run and its eleven running-argument columns: safe functions over Tealbobbin's static library,
//! which is proved to meet its contracts on every input.
//!
//! From a batch, the bytes in which a client sends a run, to the eleven cells of the table's last row:
//!
//! ```
//! use tealbobbin::air::ProcessorAuxColumn;
//! use tealbobbin::batch::Batch;
//! use tealbobbin::challenges::Challenges;
//! use tealbobbin::field::Element;
//! use tealbobbin::processor::{extend, fill, pad, work_len, AuxRow, MainRow};
//!
//! fn main() -> Result<(), Box<dyn std::error::Error>> {
//! #   std::env::set_current_dir(concat!(env!("CARGO_MANIFEST_DIR"), "/../.."))?;
//!     let batch = Batch::open(&std::fs::read("examples/document-01.batch")?)?;
//!     let challenges = Challenges::new(batch.sampled(), batch.claim())?;
//!
//!     let mut table = vec![MainRow::ZERO; batch.padded_height()];
//!     fill(batch.trace(), batch.differences(), &mut table)?;
//!     pad(&mut table, batch.trace().len())?;
//!
//!     let mut aux = vec![AuxRow::ZERO; table.len()];
//!     let mut work = vec![0; work_len(table.len(), 4)];
//!     extend(&table, &challenges, 4, &mut aux, &mut work)?;
//!
//!     let last = aux[aux.len() - 1];
//!     for column in ProcessorAuxColumn::ALL {
//!         let Element([c0, c1, c2]) = last[column];
//!         println!("{} {c0} {c1} {c2}", column.aux_index());
//!     }
//! #   assert_eq!(last.0, [1, 1, 9223372034707292161, 1, 1, 0, 1, 1, 1, 0, 1].map(Element::from));
//!     Ok(())
//! }
//! ```
//!
//! [`batch::terminals`] does all of this in one call and without a table, which is millions of rows high where a batch says so.
//! [`processor`] has an example of rows built by hand, [`processor::check`] one of columns made elsewhere, [`batch`] one of a batch
//! that is filled, written and opened again in both forms of rows, [`field::Montgomery`] one of arithmetic in the prover's form, and
//! [`isa`] says why a row does not decode.
//!
//! A word is a `u64` below [`field::P`], an [`Element`](field::Element) three of them; a word in Montgomery form is a type of its own,
//! [`Montgomery`](field::Montgomery). Rows, elements and challenges are types over their words, which are lent to the library where
//! they lie, without a copy. A function that turns its input away answers with a [`Refusal`] and has written nothing; none panics.
//!
//! The crate needs neither the standard library nor an allocator. It links `libtealbobbin.a` from the repository's
//! `target/staticlib`, where `scripts/library` writes it, or from the folder that the environment variable `TEALBOBBIN_LIB`
//! names, a relative path being seen from the repository's top. `cargo check` and `cargo doc` do without it.

#![no_std]
#![deny(missing_docs, unsafe_code)]
#![forbid(unsafe_op_in_unsafe_fn)]

#[allow(unsafe_code)]
pub mod abi;
pub mod air;
pub mod batch;
pub mod challenges;
pub mod field;
pub mod isa;
pub mod processor;
mod refusal;
pub mod running_arguments;

use refusal::answer;
pub use refusal::Refusal;
