//! A stand-in for ndarray's one-dimensional view, with only what `utils.rs` and
//! `n/strategies.rs` use. What rests on it: `first` and `last` are the end nodes, or
//! nothing on an empty axis; `len` is the count; `[i]` is node i and panics at or past
//! the count; a view is copied freely, whatever its element, and the view of a view is
//! the same view. Strides and offsets are not imitated.

use core::ops::Index;

pub struct ArrayView1<'a, T> {
    nodes: &'a [T],
}

impl<T> Clone for ArrayView1<'_, T> {
    fn clone(&self) -> Self {
        *self
    }
}

impl<T> Copy for ArrayView1<'_, T> {}

impl<'a, T> From<&'a [T]> for ArrayView1<'a, T> {
    fn from(nodes: &'a [T]) -> Self {
        ArrayView1 { nodes }
    }
}

impl<T> ArrayView1<'_, T> {
    pub fn first(&self) -> Option<&T> {
        self.nodes.first()
    }

    pub fn last(&self) -> Option<&T> {
        self.nodes.last()
    }

    pub fn len(&self) -> usize {
        self.nodes.len()
    }

    pub fn is_empty(&self) -> bool {
        self.nodes.is_empty()
    }

    pub fn view(&self) -> ArrayView1<'_, T> {
        *self
    }
}

impl<T> Index<usize> for ArrayView1<'_, T> {
    type Output = T;

    fn index(&self, i: usize) -> &T {
        &self.nodes[i]
    }
}
