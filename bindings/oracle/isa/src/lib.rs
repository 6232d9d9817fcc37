//! The original's instructions.

#![allow(dead_code)]

extern crate assorted as arbitrary;
extern crate assorted as get_size2;
extern crate assorted as itertools;
extern crate assorted as lazy_static;
extern crate assorted as num_traits;
extern crate assorted as serde;
extern crate assorted as strum;
extern crate assorted as thiserror;

pub mod op_stack;

include!(concat!(env!("OUT_DIR"), "/root.rs"));
