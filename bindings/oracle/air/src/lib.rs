//! The original's columns, challenges and processor table with its constraints.

#![allow(dead_code)]

extern crate assorted as arbitrary;
extern crate assorted as itertools;
extern crate assorted as strum;

use constraint_circuit::{ConstraintCircuitBuilder, ConstraintCircuitMonad, DualRowIndicator, SingleRowIndicator};

include!(concat!(env!("OUT_DIR"), "/root.rs"));

pub mod table;

mod private {
    pub trait Seal {}
}

/// A table's columns and constraints.
pub trait AIR: private::Seal {
    type MainColumn;
    type AuxColumn;

    fn initial_constraints(
        circuit_builder: &ConstraintCircuitBuilder<SingleRowIndicator>,
    ) -> Vec<ConstraintCircuitMonad<SingleRowIndicator>>;

    fn consistency_constraints(
        circuit_builder: &ConstraintCircuitBuilder<SingleRowIndicator>,
    ) -> Vec<ConstraintCircuitMonad<SingleRowIndicator>>;

    fn transition_constraints(
        circuit_builder: &ConstraintCircuitBuilder<DualRowIndicator>,
    ) -> Vec<ConstraintCircuitMonad<DualRowIndicator>>;

    fn terminal_constraints(
        circuit_builder: &ConstraintCircuitBuilder<SingleRowIndicator>,
    ) -> Vec<ConstraintCircuitMonad<SingleRowIndicator>>;
}
