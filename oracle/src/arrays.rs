//! Stand-ins for ndarray's owned arrays, its view in N dimensions and its bounds, with
//! only what `n/strategies.rs` uses. What rests on them: values lie flat, last axis
//! fastest; `[indexes]` is the value there and panics on a wrong number of indexes or
//! one outside; `index_axis_inplace` fixes one axis at an index and takes that axis out,
//! the others keep their order; `ndim` counts the axes that are left, `len` the values
//! that can still be reached, `first` is the one at all zeros. Nothing is computed with
//! an element.

use crate::per_axis::PerAxis;
use crate::views::ArrayView1;
use core::marker::PhantomData;
use core::ops::Index;

/// In ndarray `Elem` comes from a third trait, below these two.
pub trait Data {
    type Elem;
}

pub trait RawDataClone {}

#[derive(Clone)]
pub struct OwnedRepr<T>(PhantomData<T>);

impl<T> Data for OwnedRepr<T> {
    type Elem = T;
}

impl<T> RawDataClone for OwnedRepr<T> {}

pub struct Axis(pub usize);

pub struct Array1<T> {
    nodes: Vec<T>,
}

impl<T> From<Vec<T>> for Array1<T> {
    fn from(nodes: Vec<T>) -> Self {
        Array1 { nodes }
    }
}

impl<T> Array1<T> {
    pub fn view(&self) -> ArrayView1<'_, T> {
        ArrayView1::from(self.nodes.as_slice())
    }

    pub fn len(&self) -> usize {
        self.nodes.len()
    }

    pub fn is_empty(&self) -> bool {
        self.nodes.is_empty()
    }
}

impl<T> Index<usize> for Array1<T> {
    type Output = T;

    fn index(&self, i: usize) -> &T {
        &self.nodes[i]
    }
}

pub struct ArrayD<T> {
    shape: PerAxis<usize>,
    strides: PerAxis<usize>,
    values: Vec<T>,
}

impl<T> ArrayD<T> {
    pub fn from_shape_vec(shape: Vec<usize>, values: Vec<T>) -> Self {
        assert_eq!(shape.iter().product::<usize>(), values.len());
        let mut strides = vec![1; shape.len()];
        for d in (1..shape.len()).rev() {
            strides[d - 1] = strides[d] * shape[d];
        }
        ArrayD {
            shape: shape.into_iter().collect(),
            strides: strides.into_iter().collect(),
            values,
        }
    }

    pub fn ndim(&self) -> usize {
        self.shape.len()
    }

    pub fn view(&self) -> ArrayViewD<'_, T> {
        ArrayViewD {
            shape: self.shape,
            strides: self.strides,
            values: &self.values,
        }
    }
}

pub struct ArrayViewD<'a, T> {
    shape: PerAxis<usize>,
    strides: PerAxis<usize>,
    values: &'a [T],
}

impl<T> ArrayViewD<'_, T> {
    pub fn ndim(&self) -> usize {
        self.shape.len()
    }

    pub fn len(&self) -> usize {
        self.shape.iter().product()
    }

    pub fn is_empty(&self) -> bool {
        self.len() == 0
    }

    pub fn first(&self) -> Option<&T> {
        self.values.first()
    }

    pub fn index_axis_inplace(&mut self, Axis(d): Axis, index: usize) {
        assert!(index < self.shape[d]);
        self.values = &self.values[index * self.strides[d]..];
        self.shape.remove(d);
        self.strides.remove(d);
    }
}

impl<T> Index<&[usize]> for ArrayViewD<'_, T> {
    type Output = T;

    fn index(&self, indexes: &[usize]) -> &T {
        assert_eq!(indexes.len(), self.ndim());
        let mut place = 0;
        let each = indexes.iter().zip(self.shape.iter());
        for ((&index, &count), &stride) in each.zip(self.strides.iter()) {
            assert!(index < count);
            place += index * stride;
        }
        &self.values[place]
    }
}
