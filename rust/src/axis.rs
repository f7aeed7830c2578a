//! The seven primitives on one axis, under the names that ninterp has for them.
//!
//! `grid` is the axis: 2 to 64 finite nodes, each above the one before. Outside the range a primitive gives a clamped answer and never
//! refuses with 11. Where an axis is named in a refusal it is 0.

use crate::{ffi, Refusal};

/// Which node Step takes for a reading between two.
#[repr(u8)]
#[derive(Clone, Copy, Debug, PartialEq, Eq, Hash)]
pub enum Direction {
    /// The last node at or below the reading.
    Lower = 0,
    /// The first node at or above the reading.
    Upper = 1,
}

/// Where a reading lies on an axis.
#[derive(Clone, Copy, Debug, PartialEq)]
pub enum AxisLocation {
    /// On this node.
    Exact(usize),
    /// In the cell above the node `lower`, at this fraction of it. Outside the range the fraction is not clamped.
    Between {
        /// The lower node of the cell.
        lower: usize,
        /// (reading - lower node) / (upper node - lower node), each operation rounded.
        frac: f64,
    },
}

/// The count of nodes strictly below the reading, less 1, held between 0 and n-2.
///
/// Refusals: 2, 4, 5, 6, 10.
pub fn locate_lower_index(grid: &[f64], point: f64) -> Result<usize, Refusal> {
    ffi::locate_lower_index(grid, point).judged()
}

/// Either the exact node, or a lower index with a fraction.
///
/// Refusals: 2, 4, 5, 6, 10, and 12 where the fraction is not finite.
pub fn locate_axis(grid: &[f64], point: f64) -> Result<AxisLocation, Refusal> {
    ffi::locate_axis(grid, point).judged()
}

/// The node that Step takes. Below the range Lower gives 0 and Upper 1; above it n-2 and n-1.
///
/// Refusals: 2, 4, 5, 6, 10.
pub fn locate_step_index(direction: Direction, grid: &[f64], point: f64) -> Result<usize, Refusal> {
    ffi::locate_step_index(direction, grid, point).judged()
}

/// `lower` if that node equals the reading, else the one above if that does, else none. Plus and minus zero are equal.
///
/// Refusals: 2, 4, 5, 6, 2 (place 1) where `lower` is not below n-1, 10.
pub fn exact_index(grid: &[f64], lower: usize, point: f64) -> Result<Option<usize>, Refusal> {
    ffi::exact_index(grid, lower, point).judged()
}

/// The lower index on a uniform axis of `n` nodes. t = (p - first) / step; the index is 0 where t is below 0, else the whole part of t, at
/// most n-2; but where t is infinite or 2^64 and more, 0.
///
/// Refusals: 2, 4 (the first node), 8 (the step), 10.
pub fn locate_lower_index_uniform(first: f64, step: f64, n: usize, point: f64) -> Result<usize, Refusal> {
    ffi::locate_lower_index_uniform(first, step, n, point).judged()
}

/// Whether every gap differs from the first, as rounded, by at most the tolerance.
///
/// Refusals: 2, 4, 5, 6, 8 (place 0) for the tolerance, 8 for the interval, told by its lower node.
pub fn validate_uniform_grid(grid: &[f64], tolerance: f64) -> Result<(), Refusal> {
    ffi::validate_uniform_grid(grid, tolerance).judged().map(drop)
}

/// The same; without a tolerance by the default, the first gap times 2^-42.
///
/// Refusals: those of [`validate_uniform_grid`].
pub fn validate_uniform_grid_epsilon(grid: &[f64], tolerance: Option<f64>) -> Result<(), Refusal> {
    ffi::validate_uniform_grid_epsilon(grid, tolerance).judged().map(drop)
}
