//! A table's shape, as the archive takes and gives it.

use crate::{Table, MOST_AXES};

/// The shape of a table that [`load`](crate::load) or a slice wrote.
#[repr(C)]
#[derive(Clone, Copy, Debug, PartialEq, Eq)]
pub struct Shape {
    axes: usize,
    counts: [usize; MOST_AXES],
}

impl Shape {
    /// Of any counts. A shape has four places: of more counts the first four are kept, and how many there are, which every call refuses
    /// (1, 0, 0).
    pub(crate) fn of(counts: &[usize]) -> Shape {
        let mut shape = Shape { axes: counts.len(), counts: [0; MOST_AXES] };
        for (place, &count) in shape.counts.iter_mut().zip(counts) {
            *place = count;
        }
        shape
    }

    /// How many nodes each axis has.
    pub fn counts(&self) -> &[usize] {
        self.counts.get(..self.axes).unwrap_or(&self.counts)
    }

    /// How many nodes all axes have together.
    pub fn nodes(&self) -> usize {
        self.counts().iter().sum()
    }

    /// How many values there are, the product of the counts.
    pub fn values(&self) -> usize {
        self.counts().iter().product()
    }

    /// The table of this shape at the start of two buffers, which may be longer. Where one is shorter the table has all of it, and every
    /// call refuses it (3).
    pub fn table<'a>(&'a self, nodes: &'a [f64], values: &'a [f64]) -> Table<'a> {
        Table::new(self.counts(), nodes.get(..self.nodes()).unwrap_or(nodes), values.get(..self.values()).unwrap_or(values))
    }
}
