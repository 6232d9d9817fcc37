//! A constraint is its value at the rows that its builder holds.

use std::iter::Sum;
use std::marker::PhantomData;
use std::ops::{Add, Mul, Sub};

use twenty_first::prelude::*;

/// The current and the next row of both tables, and the challenges.
#[derive(Clone)]
pub struct Rows {
    pub main: [Vec<XFieldElement>; 2],
    pub aux: [Vec<XFieldElement>; 2],
    pub challenges: Vec<XFieldElement>,
}

pub trait InputIndicator {
    fn value(&self, rows: &Rows) -> XFieldElement;
}

#[derive(Debug)]
pub enum SingleRowIndicator {
    Main(usize),
    Aux(usize),
}

#[derive(Debug)]
pub enum DualRowIndicator {
    CurrentMain(usize),
    CurrentAux(usize),
    NextMain(usize),
    NextAux(usize),
}

impl InputIndicator for SingleRowIndicator {
    fn value(&self, rows: &Rows) -> XFieldElement {
        match self {
            Self::Main(column) => rows.main[0][*column],
            Self::Aux(column) => rows.aux[0][*column],
        }
    }
}

impl InputIndicator for DualRowIndicator {
    fn value(&self, rows: &Rows) -> XFieldElement {
        match self {
            Self::CurrentMain(column) => rows.main[0][*column],
            Self::CurrentAux(column) => rows.aux[0][*column],
            Self::NextMain(column) => rows.main[1][*column],
            Self::NextAux(column) => rows.aux[1][*column],
        }
    }
}

pub struct ConstraintCircuitBuilder<II> {
    rows: Rows,
    indicator: PhantomData<II>,
}

#[derive(Debug)]
pub struct ConstraintCircuitMonad<II> {
    pub value: XFieldElement,
    indicator: PhantomData<II>,
}

impl<II> ConstraintCircuitMonad<II> {
    fn new(value: XFieldElement) -> Self {
        Self { value, indicator: PhantomData }
    }
}

impl<II: InputIndicator> ConstraintCircuitBuilder<II> {
    pub fn new(rows: Rows) -> Self {
        Self { rows, indicator: PhantomData }
    }

    pub fn b_constant<C: Into<BFieldElement>>(&self, constant: C) -> ConstraintCircuitMonad<II> {
        ConstraintCircuitMonad::new(constant.into().lift())
    }

    pub fn x_constant(&self, constant: XFieldElement) -> ConstraintCircuitMonad<II> {
        ConstraintCircuitMonad::new(constant)
    }

    pub fn challenge<C: Into<usize>>(&self, id: C) -> ConstraintCircuitMonad<II> {
        ConstraintCircuitMonad::new(self.rows.challenges[id.into()])
    }

    pub fn input(&self, indicator: II) -> ConstraintCircuitMonad<II> {
        ConstraintCircuitMonad::new(indicator.value(&self.rows))
    }
}

impl<II> Clone for ConstraintCircuitMonad<II> {
    fn clone(&self) -> Self {
        Self::new(self.value)
    }
}

macro_rules! operators {
    ($($of:ident $name:ident),*) => { $(
        impl<II> $of for ConstraintCircuitMonad<II> {
            type Output = Self;

            fn $name(self, other: Self) -> Self {
                Self::new(self.value.$name(other.value))
            }
        }
    )* };
}

operators!(Add add, Sub sub, Mul mul);

impl<II> Sum for ConstraintCircuitMonad<II> {
    fn sum<I: Iterator<Item = Self>>(constraints: I) -> Self {
        Self::new(constraints.map(|constraint| constraint.value).sum())
    }
}
