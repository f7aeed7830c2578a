//! A table: its four lookups, its four slices, and its image.

use crate::{ffi, Direction, Refusal, Shape};

/// A table that is lent, not yet judged: each call judges all of it.
#[derive(Clone, Copy, Debug)]
pub struct Table<'a> {
    pub(crate) counts: &'a [usize],
    pub(crate) nodes: &'a [f64],
    pub(crate) values: &'a [f64],
}

impl<'a> Table<'a> {
    /// `counts` says how many nodes each axis has. `nodes` lie axis after axis, `values` with the last axis fastest.
    pub const fn new(counts: &'a [usize], nodes: &'a [f64], values: &'a [f64]) -> Table<'a> {
        Table { counts, nodes, values }
    }
}

/// # Lookups
///
/// `point` has a reading for each axis. Refusals: 1, 2, 3; each axis node by node, 4, 5, 6; 7; 10; 11; and what is said beside each.
impl Table<'_> {
    /// Blends the corners of the reading's cell, axis 0 first: a * (1 - f) + b * f. An axis whose reading is a node is fixed there first.
    pub fn linear(&self, point: &[f64]) -> Result<f64, Refusal> {
        ffi::interpolate_linear(self, point).judged()
    }

    /// The same on uniform axes, by the first gap and without that shortcut. Also 8 after 7, and 12 last.
    pub fn linear_uniform(&self, point: &[f64]) -> Result<f64, Refusal> {
        ffi::interpolate_linear_uniform(self, point).judged()
    }

    /// The value at the nearest node of each axis; a tie goes to the upper one.
    pub fn nearest(&self, point: &[f64]) -> Result<f64, Refusal> {
        ffi::interpolate_nearest(self, point).judged()
    }

    /// The value at the node that the direction of each axis takes. Also 3 (place 3) of the directions.
    pub fn step(&self, point: &[f64], directions: &[Direction]) -> Result<f64, Refusal> {
        ffi::interpolate_step(self, point, directions).judged()
    }
}

/// # Slices
///
/// One axis is removed at a reading: axis 0 by the two linears, any by the others. The values of the slice go to the start of `out`, which
/// may be longer; the other axes and their nodes stay, in their order. Refusals: 1, 2, 3, 16; each axis node by node, 4, 5, 6; 7; 10 and
/// 11 of the reading; 15 (place 1); and what is said beside each.
impl Table<'_> {
    /// By the rule of [`linear`](Table::linear), on axis 0.
    pub fn slice_linear(&self, axis: usize, reading: f64, out: &mut [f64]) -> Result<Shape, Refusal> {
        ffi::slice_linear(self, axis, reading, out).judged()
    }

    /// By the rule of [`linear_uniform`](Table::linear_uniform), on axis 0. Also 8 after 7, and 12 last.
    pub fn slice_linear_uniform(&self, axis: usize, reading: f64, out: &mut [f64]) -> Result<Shape, Refusal> {
        ffi::slice_linear_uniform(self, axis, reading, out).judged()
    }

    /// By the rule of [`nearest`](Table::nearest), on any axis.
    pub fn slice_nearest(&self, axis: usize, reading: f64, out: &mut [f64]) -> Result<Shape, Refusal> {
        ffi::slice_nearest(self, axis, reading, out).judged()
    }

    /// By the rule of [`step`](Table::step), on any axis, with the directions of all axes. Also 3 (place 3) of the directions.
    pub fn slice_step(&self, directions: &[Direction], axis: usize, reading: f64, out: &mut [f64]) -> Result<Shape, Refusal> {
        ffi::slice_step(self, directions, axis, reading, out).judged()
    }
}

/// # The image
impl Table<'_> {
    /// Writes the table as an image to the start of `image`, which may be longer, and gives the image's length in bytes:
    /// 40, 8 for each node and 8 for each value.
    ///
    /// Refusals: 1 to 7, 15 (place 2).
    pub fn write(&self, image: &mut [u8]) -> Result<usize, Refusal> {
        ffi::write(self, image).judged()
    }
}
