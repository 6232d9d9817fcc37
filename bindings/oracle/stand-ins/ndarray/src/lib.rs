//! Arrays of one and two dimensions and their views, in either order of memory.

use std::marker::PhantomData;
use std::mem::MaybeUninit;
use std::ops::{Index, IndexMut, Range, RangeFrom, RangeFull, RangeTo};

use assorted::Zero;

pub mod prelude {
    pub use crate::{Array1, Array2, ArrayView1, ArrayView2, ArrayViewMut1, ArrayViewMut2, Axis, ShapeBuilder, s};
}

pub mod parallel {
    pub mod prelude {
        pub use rayon::prelude::{IndexedParallelIterator, IntoParallelIterator, IntoParallelRefIterator};
        pub use rayon::prelude::{IntoParallelRefMutIterator, ParallelIterator};
    }
}

pub type Ix = usize;
pub type Array1<T> = Array<T, 1>;
pub type Array2<T> = Array<T, 2>;
pub type ArrayView1<'a, T> = ArrayView<'a, T, 1>;
pub type ArrayView2<'a, T> = ArrayView<'a, T, 2>;
pub type ArrayViewMut1<'a, T> = ArrayViewMut<'a, T, 1>;
pub type ArrayViewMut2<'a, T> = ArrayViewMut<'a, T, 2>;

#[derive(Debug, Copy, Clone, Eq, PartialEq)]
pub struct Axis(pub usize);

#[derive(Debug, Copy, Clone, Eq, PartialEq)]
pub struct Dim<I>(pub I);

#[derive(Debug)]
pub struct ShapeError;

/// Lengths along the axes, and how far apart in memory neighbours along each of them are.
#[derive(Debug, Copy, Clone, Eq, PartialEq)]
pub struct Shape<const D: usize> {
    lengths: [usize; D],
    strides: [usize; D],
}

impl Shape<1> {
    fn line(length: usize) -> Self {
        Self { lengths: [length], strides: [1] }
    }

    #[inline(always)]
    fn at(&self, i: usize) -> usize {
        assert!(i < self.lengths[0], "index out of bounds");
        i * self.strides[0]
    }
}

impl Shape<2> {
    fn row_major([rows, columns]: [usize; 2]) -> Self {
        Self { lengths: [rows, columns], strides: [columns, 1] }
    }

    fn column_major([rows, columns]: [usize; 2]) -> Self {
        Self { lengths: [rows, columns], strides: [1, rows] }
    }

    #[inline(always)]
    fn at(&self, [row, column]: [usize; 2]) -> usize {
        assert!(row < self.lengths[0] && column < self.lengths[1], "index out of bounds");
        row * self.strides[0] + column * self.strides[1]
    }

    /// Where the i-th line across an axis begins, and its shape.
    #[inline(always)]
    fn across(&self, Axis(axis): Axis, i: usize) -> (usize, Shape<1>) {
        assert!(i < self.lengths[axis], "index out of bounds");
        let along = 1 - axis;
        (i * self.strides[axis], Shape { lengths: [self.lengths[along]], strides: [self.strides[along]] })
    }
}

pub trait ShapeBuilder {
    type Dim;

    fn shape(self) -> Shape<2>;

    /// The same lengths, columns contiguous.
    fn f(self) -> Shape<2>
    where
        Self: Sized,
    {
        Shape::column_major(self.shape().lengths)
    }
}

impl ShapeBuilder for (usize, usize) {
    type Dim = Dim<[Ix; 2]>;

    fn shape(self) -> Shape<2> {
        Shape::row_major([self.0, self.1])
    }
}

impl ShapeBuilder for Shape<2> {
    type Dim = Dim<[Ix; 2]>;

    fn shape(self) -> Shape<2> {
        self
    }
}

/// A part of an axis.
pub trait Part {
    fn of(self, length: usize) -> Range<usize>;
}

impl Part for Range<usize> {
    fn of(self, length: usize) -> Range<usize> {
        assert!(self.start <= self.end && self.end <= length, "slice out of bounds");
        self
    }
}

impl Part for RangeFrom<usize> {
    fn of(self, length: usize) -> Range<usize> {
        (self.start..length).of(length)
    }
}

impl Part for RangeTo<usize> {
    fn of(self, length: usize) -> Range<usize> {
        (0..self.end).of(length)
    }
}

impl Part for RangeFull {
    fn of(self, length: usize) -> Range<usize> {
        0..length
    }
}

/// What `s!` makes: a part of both axes, or of one axis at one index of the other. Gives the offset and the new shape.
pub trait Slice<const D: usize> {
    fn of(self, shape: &Shape<2>) -> (usize, Shape<D>);
}

impl<R: Part, C: Part> Slice<2> for (R, C) {
    fn of(self, shape: &Shape<2>) -> (usize, Shape<2>) {
        let parts = [self.0.of(shape.lengths[0]), self.1.of(shape.lengths[1])];
        let offset = parts[0].start * shape.strides[0] + parts[1].start * shape.strides[1];
        (offset, Shape { lengths: parts.map(|part| part.len()), strides: shape.strides })
    }
}

impl<R: Part> Slice<1> for (R, usize) {
    fn of(self, shape: &Shape<2>) -> (usize, Shape<1>) {
        let part = self.0.of(shape.lengths[0]);
        let (offset, line) = shape.across(Axis(1), self.1);
        (offset + part.start * line.strides[0], Shape { lengths: [part.len()], ..line })
    }
}

#[macro_export]
macro_rules! s {
    ($rows:expr, $columns:expr) => {
        ($rows, $columns)
    };
}

/// Owned items.
#[derive(Debug, Clone, Eq, PartialEq)]
pub struct Array<T, const D: usize> {
    items: Vec<T>,
    shape: Shape<D>,
}

/// Items that are lent for reading. Every index that `shape` admits stays within them.
#[derive(Debug)]
pub struct ArrayView<'a, T, const D: usize> {
    first: *const T,
    shape: Shape<D>,
    lent: PhantomData<&'a T>,
}

/// Items that are lent for writing, to no one else at the same time.
#[derive(Debug)]
pub struct ArrayViewMut<'a, T, const D: usize> {
    first: *mut T,
    shape: Shape<D>,
    lent: PhantomData<&'a mut T>,
}

impl<T, const D: usize> Copy for ArrayView<'_, T, D> {}

impl<T, const D: usize> Clone for ArrayView<'_, T, D> {
    fn clone(&self) -> Self {
        *self
    }
}

impl<'a, T, const D: usize> ArrayView<'a, T, D> {
    #[inline(always)]
    fn at<const E: usize>(&self, (offset, shape): (usize, Shape<E>)) -> ArrayView<'a, T, E> {
        ArrayView { first: self.first.wrapping_add(offset), shape, lent: PhantomData }
    }

    #[inline(always)]
    pub fn view(&self) -> ArrayView<'_, T, D> {
        *self
    }
}

impl<T, const D: usize> ArrayViewMut<'_, T, D> {
    fn at<'b, const E: usize>(&mut self, (offset, shape): (usize, Shape<E>)) -> ArrayViewMut<'b, T, E> {
        ArrayViewMut { first: self.first.wrapping_add(offset), shape, lent: PhantomData }
    }

    pub fn view(&self) -> ArrayView<'_, T, D> {
        ArrayView { first: self.first, shape: self.shape, lent: PhantomData }
    }

    pub fn view_mut(&mut self) -> ArrayViewMut<'_, T, D> {
        self.at((0, self.shape))
    }
}

impl<T, const D: usize> Array<T, D> {
    pub fn view(&self) -> ArrayView<'_, T, D> {
        ArrayView { first: self.items.as_ptr(), shape: self.shape, lent: PhantomData }
    }

    pub fn view_mut(&mut self) -> ArrayViewMut<'_, T, D> {
        ArrayViewMut { first: self.items.as_mut_ptr(), shape: self.shape, lent: PhantomData }
    }

    pub fn as_slice_memory_order_mut(&mut self) -> Option<&mut [T]> {
        Some(&mut self.items)
    }

    pub fn par_mapv_inplace(&mut self, f: impl Fn(T) -> T)
    where
        T: Clone,
    {
        self.items.iter_mut().for_each(|item| *item = f(item.clone()));
    }
}

impl<T> Array<T, 1> {
    pub fn zeros([length]: [usize; 1]) -> Self
    where
        T: Zero + Clone,
    {
        Self::from_iter(std::iter::repeat_n(T::zero(), length))
    }

    pub fn from_iter(items: impl IntoIterator<Item = T>) -> Self {
        let items: Vec<T> = items.into_iter().collect();
        let shape = Shape::line(items.len());
        Self { items, shape }
    }

    pub fn move_into(self, mut to: ArrayViewMut1<T>) {
        assert_eq!(self.shape.lengths, to.shape.lengths);
        to.iter_mut().zip(self.items).for_each(|(to, item)| *to = item);
    }
}

impl<T> Array<T, 2> {
    pub fn from_shape_vec(shape: impl ShapeBuilder, items: Vec<T>) -> Result<Self, ShapeError> {
        let shape = shape.shape();
        let fits = shape.lengths[0].checked_mul(shape.lengths[1]) == Some(items.len());
        if fits { Ok(Self { items, shape }) } else { Err(ShapeError) }
    }

    pub fn uninit(shape: impl ShapeBuilder) -> Array<MaybeUninit<T>, 2> {
        let shape = shape.shape();
        let items = (0..shape.lengths[0] * shape.lengths[1]).map(|_| MaybeUninit::uninit()).collect();
        Array { items, shape }
    }

    pub fn nrows(&self) -> usize {
        self.shape.lengths[0]
    }

    pub fn move_into(self, mut to: ArrayViewMut2<T>)
    where
        T: Copy,
    {
        to.assign(&self);
    }
}

impl<T: Copy, const D: usize> Array<MaybeUninit<T>, D> {
    /// # Safety
    ///
    /// Every item has been written.
    pub unsafe fn assume_init(self) -> Array<T, D> {
        let items = self.items.into_iter().map(|item| unsafe { item.assume_init() }).collect();
        Array { items, shape: self.shape }
    }
}

impl<'a, T> ArrayView<'a, T, 1> {
    pub fn to_owned(&self) -> Array<T, 1>
    where
        T: Clone,
    {
        Array::from_iter((0..self.shape.lengths[0]).map(|i| self[i].clone()))
    }
}

impl<'a, T> ArrayView<'a, T, 2> {
    pub fn nrows(&self) -> usize {
        self.shape.lengths[0]
    }

    pub fn ncols(&self) -> usize {
        self.shape.lengths[1]
    }

    pub fn dim(&self) -> (usize, usize) {
        (self.nrows(), self.ncols())
    }

    #[inline(always)]
    pub fn index_axis_move(self, axis: Axis, i: usize) -> ArrayView1<'a, T> {
        self.at(self.shape.across(axis, i))
    }

    pub fn column(&self, i: usize) -> ArrayView1<'a, T> {
        self.index_axis_move(Axis(1), i)
    }
}

impl<'a, T> ArrayViewMut<'a, T, 1> {
    pub fn len(&self) -> usize {
        self.shape.lengths[0]
    }

    pub fn iter_mut(&mut self) -> impl Iterator<Item = &mut T> {
        let (first, shape) = (self.first, self.shape);
        // SAFETY: the indices differ, and the view is lent for as long as the items are.
        (0..self.len()).map(move |i| unsafe { &mut *first.add(shape.at(i)) })
    }

    pub fn as_slice_mut(&mut self) -> Option<&mut [T]> {
        // SAFETY: neighbours are adjacent, and the view is lent for as long as the slice is.
        (self.shape.strides[0] == 1).then(|| unsafe { std::slice::from_raw_parts_mut(self.first, self.len()) })
    }

    pub fn assign(&mut self, from: &Array<T, 1>)
    where
        T: Copy,
    {
        assert_eq!(self.shape.lengths, from.shape.lengths);
        self.iter_mut().zip(&from.items).for_each(|(to, &item)| *to = item);
    }
}

impl<'a, T> ArrayViewMut<'a, T, 2> {
    pub fn nrows(&self) -> usize {
        self.shape.lengths[0]
    }

    pub fn ncols(&self) -> usize {
        self.shape.lengths[1]
    }

    pub fn dim(&self) -> (usize, usize) {
        (self.nrows(), self.ncols())
    }

    pub fn row(&self, i: usize) -> ArrayView1<'_, T> {
        self.view().index_axis_move(Axis(0), i)
    }

    pub fn row_mut(&mut self, i: usize) -> ArrayViewMut1<'_, T> {
        let line = self.shape.across(Axis(0), i);
        self.at(line)
    }

    pub fn column_mut(&mut self, i: usize) -> ArrayViewMut1<'_, T> {
        let line = self.shape.across(Axis(1), i);
        self.at(line)
    }

    pub fn slice_mut<const D: usize>(&mut self, slice: impl Slice<D>) -> ArrayViewMut<'_, T, D> {
        let part = slice.of(&self.shape);
        self.at(part)
    }

    /// Two slices of all rows; panics unless the first ends before the second begins.
    pub fn multi_slice_move(
        mut self,
        (left, right): ((RangeFull, RangeTo<usize>), (RangeFull, Range<usize>)),
    ) -> (ArrayViewMut<'a, T, 2>, ArrayViewMut<'a, T, 2>) {
        assert!(left.1.end <= right.1.start, "slices overlap");
        let (left, right) = (left.of(&self.shape), right.of(&self.shape));
        (self.at(left), self.at(right))
    }

    pub fn axis_iter_mut(&mut self, axis: Axis) -> AxisIterMut<'_, T> {
        let lines = 0..self.shape.lengths[axis.0];
        AxisIterMut { lines, axis, of: self.view_mut() }
    }

    pub fn assign(&mut self, from: &Array<T, 2>)
    where
        T: Copy,
    {
        assert_eq!(self.shape.lengths, from.shape.lengths);
        let from = from.view();
        for row in 0..self.nrows() {
            let line = self.shape.across(Axis(0), row);
            let from = from.index_axis_move(Axis(0), row);
            self.at(line).iter_mut().enumerate().for_each(|(column, to)| *to = from[column]);
        }
    }
}

/// The lines across an axis.
pub struct AxisIterMut<'a, T> {
    lines: Range<usize>,
    axis: Axis,
    of: ArrayViewMut<'a, T, 2>,
}

impl<'a, T> Iterator for AxisIterMut<'a, T> {
    type Item = ArrayViewMut1<'a, T>;

    fn next(&mut self) -> Option<Self::Item> {
        let line = self.of.shape.across(self.axis, self.lines.next()?);
        Some(self.of.at(line))
    }
}

impl<T> Index<usize> for Array<T, 1> {
    type Output = T;

    fn index(&self, i: usize) -> &T {
        &self.items[i]
    }
}

impl<T> IndexMut<usize> for Array<T, 1> {
    fn index_mut(&mut self, i: usize) -> &mut T {
        &mut self.items[i]
    }
}

impl<T> Index<usize> for ArrayView<'_, T, 1> {
    type Output = T;

    #[inline(always)]
    fn index(&self, i: usize) -> &T {
        // SAFETY: the index is within the shape.
        unsafe { &*self.first.add(self.shape.at(i)) }
    }
}

impl<T> Index<[usize; 2]> for ArrayView<'_, T, 2> {
    type Output = T;

    #[inline(always)]
    fn index(&self, at: [usize; 2]) -> &T {
        // SAFETY: the index is within the shape.
        unsafe { &*self.first.add(self.shape.at(at)) }
    }
}

impl<T> Index<usize> for ArrayViewMut<'_, T, 1> {
    type Output = T;

    fn index(&self, i: usize) -> &T {
        // SAFETY: the index is within the shape.
        unsafe { &*self.first.add(self.shape.at(i)) }
    }
}

impl<T> IndexMut<usize> for ArrayViewMut<'_, T, 1> {
    fn index_mut(&mut self, i: usize) -> &mut T {
        // SAFETY: the index is within the shape, and the view is lent for as long as the item is.
        unsafe { &mut *self.first.add(self.shape.at(i)) }
    }
}
