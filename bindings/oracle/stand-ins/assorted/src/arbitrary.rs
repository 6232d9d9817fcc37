//! Names only: nothing here makes arbitrary values.

use std::marker::PhantomData;
use std::ops::RangeInclusive;

pub type Result<T> = std::result::Result<T, Unavailable>;

#[derive(Debug)]
pub struct Unavailable;

pub struct Unstructured<'a>(PhantomData<&'a [u8]>);

pub trait Arbitrary<'a>: Sized {
    fn arbitrary(u: &mut Unstructured<'a>) -> Result<Self>;
}

impl Unstructured<'_> {
    pub fn arbitrary<T>(&mut self) -> Result<T> {
        Err(Unavailable)
    }

    pub fn arbitrary_len<T>(&mut self) -> Result<usize> {
        Err(Unavailable)
    }

    pub fn choose<'b, T>(&mut self, _: &'b [T]) -> Result<&'b T> {
        Err(Unavailable)
    }

    pub fn choose_index(&mut self, _: usize) -> Result<usize> {
        Err(Unavailable)
    }

    pub fn int_in_range(&mut self, _: RangeInclusive<usize>) -> Result<usize> {
        Err(Unavailable)
    }
}
