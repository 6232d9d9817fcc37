//! Rayon's iterators over the standard library's, on one thread.

use std::iter::{Enumerate, Map, Zip};

use assorted::{Itertools, ZipEq};

pub mod prelude {
    pub use crate::{IndexedParallelIterator, IntoParallelIterator, IntoParallelRefIterator, IntoParallelRefMutIterator};
    pub use crate::{ParallelIterator, ParallelSliceMut};
}

pub fn current_num_threads() -> usize {
    1
}

/// An iterator that goes from first to last.
pub struct Sequential<I>(I);

pub trait ParallelIterator: Sized {
    type Item;
    type Inner: Iterator<Item = Self::Item>;

    fn inner(self) -> Self::Inner;

    #[inline]
    fn map<R, F: Fn(Self::Item) -> R>(self, f: F) -> Sequential<Map<Self::Inner, F>> {
        Sequential(self.inner().map(f))
    }

    #[inline]
    fn for_each<F: Fn(Self::Item)>(self, f: F) {
        self.inner().for_each(f)
    }

    #[inline]
    fn collect<C: FromIterator<Self::Item>>(self) -> C {
        self.inner().collect()
    }
}

pub trait IndexedParallelIterator: ParallelIterator {
    #[inline]
    fn zip<J: IntoParallelIterator>(self, other: J) -> Sequential<Zip<Self::Inner, J::Inner>> {
        Sequential(self.inner().zip(other.into_par_iter().0))
    }

    #[inline]
    fn zip_eq<J: IntoParallelIterator>(self, other: J) -> Sequential<ZipEq<Self::Inner, J::Inner>> {
        Sequential(self.inner().zip_eq(other.into_par_iter().0))
    }

    #[inline]
    fn enumerate(self) -> Sequential<Enumerate<Self::Inner>> {
        Sequential(self.inner().enumerate())
    }
}

impl<I: Iterator> ParallelIterator for Sequential<I> {
    type Item = I::Item;
    type Inner = I;

    #[inline]
    fn inner(self) -> I {
        self.0
    }
}

impl<I: Iterator> IndexedParallelIterator for Sequential<I> {}

pub trait IntoParallelIterator {
    type Inner: Iterator;

    fn into_par_iter(self) -> Sequential<Self::Inner>;
}

impl<I: IntoIterator> IntoParallelIterator for I {
    type Inner = I::IntoIter;

    #[inline]
    fn into_par_iter(self) -> Sequential<I::IntoIter> {
        Sequential(self.into_iter())
    }
}

pub trait IntoParallelRefIterator<T> {
    fn par_iter(&self) -> Sequential<std::slice::Iter<'_, T>>;
}

impl<T> IntoParallelRefIterator<T> for [T] {
    #[inline]
    fn par_iter(&self) -> Sequential<std::slice::Iter<'_, T>> {
        Sequential(self.iter())
    }
}

pub trait IntoParallelRefMutIterator<T> {
    fn par_iter_mut(&mut self) -> Sequential<std::slice::IterMut<'_, T>>;
}

impl<T> IntoParallelRefMutIterator<T> for [T] {
    #[inline]
    fn par_iter_mut(&mut self) -> Sequential<std::slice::IterMut<'_, T>> {
        Sequential(self.iter_mut())
    }
}

pub trait ParallelSliceMut<T> {
    fn par_chunks_mut(&mut self, len: usize) -> Sequential<std::slice::ChunksMut<'_, T>>;

    fn par_sort_unstable(&mut self)
    where
        T: Ord;
}

impl<T> ParallelSliceMut<T> for [T] {
    #[inline]
    fn par_chunks_mut(&mut self, len: usize) -> Sequential<std::slice::ChunksMut<'_, T>> {
        Sequential(self.chunks_mut(len))
    }

    fn par_sort_unstable(&mut self)
    where
        T: Ord,
    {
        self.sort_unstable();
    }
}
