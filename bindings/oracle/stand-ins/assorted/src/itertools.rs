//! Itertools.

use std::fmt::Display;

pub trait Itertools: Iterator {
    fn collect_vec(self) -> Vec<Self::Item>
    where
        Self: Sized,
    {
        self.collect()
    }

    /// Pairs; panics if one side ends before the other.
    fn zip_eq<J: IntoIterator>(self, other: J) -> ZipEq<Self, J::IntoIter>
    where
        Self: Sized,
    {
        ZipEq { left: self, right: other.into_iter() }
    }

    /// All but the last n.
    fn dropping_back(mut self, n: usize) -> Self
    where
        Self: Sized + DoubleEndedIterator,
    {
        self.by_ref().rev().take(n).for_each(drop);
        self
    }

    fn join(&mut self, between: &str) -> String
    where
        Self::Item: Display,
    {
        let words: Vec<String> = self.map(|item| item.to_string()).collect();
        words.join(between)
    }
}

impl<I: Iterator + ?Sized> Itertools for I {}

pub struct ZipEq<I, J> {
    left: I,
    right: J,
}

impl<I: Iterator, J: Iterator> Iterator for ZipEq<I, J> {
    type Item = (I::Item, J::Item);

    #[inline]
    fn next(&mut self) -> Option<Self::Item> {
        match (self.left.next(), self.right.next()) {
            (Some(left), Some(right)) => Some((left, right)),
            (None, None) => None,
            _ => panic!("one side of zip_eq is shorter than the other"),
        }
    }

    #[inline]
    fn size_hint(&self) -> (usize, Option<usize>) {
        self.left.size_hint()
    }
}

#[macro_export]
macro_rules! izip {
    ($a:expr, $b:expr, $c:expr) => {
        $a.into_iter().zip($b).zip($c).map(|((a, b), c)| (a, b, c))
    };
}
