//! The original's constraints at rows of its tables.

use air::AIR;
use air::table::processor::ProcessorTable;
use constraint_circuit::{ConstraintCircuitBuilder, Rows};
use num_traits::{ConstOne, Zero};
use twenty_first::prelude::*;

use crate::{AUX_WIDTH, MAIN_WIDTH, base, elements};

/// Of each column, whether its cell in row 0 meets its initial constraint.
pub fn initial_met(main: &[u64], aux: &[u64], challenges: &[u64]) -> [bool; AUX_WIDTH] {
    met(rows(main, aux, challenges), 0, |rows| {
        let constraints = ProcessorTable::initial_constraints(&ConstraintCircuitBuilder::new(rows));
        constraints.iter().map(|constraint| constraint.value).collect()
    })
}

/// Of each column, whether its cell in row 1 meets its transition constraint.
pub fn transition_met(main: &[u64], aux: &[u64], challenges: &[u64]) -> [bool; AUX_WIDTH] {
    met(rows(main, aux, challenges), 1, |rows| {
        let constraints = ProcessorTable::transition_constraints(&ConstraintCircuitBuilder::new(rows));
        constraints.iter().map(|constraint| constraint.value).collect()
    })
}

/// The first two rows.
fn rows(main: &[u64], aux: &[u64], challenges: &[u64]) -> Rows {
    let main: Vec<_> = base(main).into_iter().map(|word| word.lift()).collect();
    let (aux, challenges) = (elements(aux), elements(challenges));
    Rows {
        main: [0, 1].map(|row| main[row * MAIN_WIDTH..][..MAIN_WIDTH].to_vec()),
        aux: [0, 1].map(|row| aux[row * AUX_WIDTH..][..AUX_WIDTH].to_vec()),
        challenges,
    }
}

/// A cell's constraint is the one whose value changes with the cell.
fn met(rows: Rows, row: usize, values: impl Fn(Rows) -> Vec<XFieldElement>) -> [bool; AUX_WIDTH] {
    let here = values(rows.clone());
    std::array::from_fn(|column| {
        let mut changed = rows.clone();
        changed.aux[row][column] = changed.aux[row][column] + XFieldElement::ONE;
        let there = values(changed);
        let of_the_cell: Vec<usize> = (0..here.len()).filter(|&k| here[k] != there[k]).collect();
        let [constraint] = of_the_cell[..] else { panic!("column {column} has {} constraints", of_the_cell.len()) };
        here[constraint].is_zero()
    })
}
