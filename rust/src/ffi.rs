//! The archive's calls, as `include/ngamsothul.h` declares them, and over each a safe function. All that is `unsafe` stands here.
//!
//! A call takes any numbers. What the header asks for beside that:
//!
//! - A pointer with its length is a buffer: here each is a slice's. That of an empty slice leads nowhere, which the header allows. A tally,
//!   which has no length beside it, is a `&mut Tally`.
//! - A buffer that is written overlaps no other of the call: here it is a `&mut`.
//! - The machine rounds to nearest, keeps subnormal numbers and has floating-point exceptions masked: Rust asks for the same.
//! - There is stack left: where there is not, the program ends at the guard page, as in a Rust function. The one call that takes more than
//!   a page, `ng_load`, touches its pages in turn.
#![allow(unsafe_code)]

use crate::answers::{Answer, AxisAnswer, ExactAnswer, IndexAnswer, ShapeAnswer, WriteAnswer};
use crate::{Direction, Shape, Table, Tally};

// Without SSE2 floats are passed in other registers.
#[cfg(not(all(target_arch = "x86_64", target_pointer_width = "64", target_feature = "sse2", not(windows), not(target_os = "uefi"), not(target_vendor = "apple"))))]
compile_error!("libngamsothul.a is for x86-64 with SSE2 and the calling convention of Linux");

type Floats = *const f64;
type Bytes = *const u8;

#[rustfmt::skip]
extern "C" {
    fn ng_locate_lower_index(grid: Floats, grid_length: usize, point: f64) -> IndexAnswer;
    fn ng_locate_axis(grid: Floats, grid_length: usize, point: f64) -> AxisAnswer;
    fn ng_locate_step_index(direction: u8, grid: Floats, grid_length: usize, point: f64) -> IndexAnswer;
    fn ng_exact_index(grid: Floats, grid_length: usize, lower: usize, point: f64) -> ExactAnswer;
    fn ng_locate_lower_index_uniform(first: f64, step: f64, n: usize, point: f64) -> IndexAnswer;
    fn ng_validate_uniform_grid(grid: Floats, grid_length: usize, tolerance: f64) -> Answer;
    fn ng_validate_uniform_grid_epsilon(grid: Floats, grid_length: usize, lent: u32, tolerance: f64) -> Answer;

    fn ng_interpolate_linear(
        shape: Shape, nodes: Floats, nodes_length: usize, values: Floats, values_length: usize, point: Floats, point_length: usize,
    ) -> Answer;
    fn ng_interpolate_linear_uniform(
        shape: Shape, nodes: Floats, nodes_length: usize, values: Floats, values_length: usize, point: Floats, point_length: usize,
    ) -> Answer;
    fn ng_interpolate_nearest(
        shape: Shape, nodes: Floats, nodes_length: usize, values: Floats, values_length: usize, point: Floats, point_length: usize,
    ) -> Answer;
    fn ng_interpolate_step(
        shape: Shape, nodes: Floats, nodes_length: usize, values: Floats, values_length: usize, point: Floats, point_length: usize,
        directions: Bytes, directions_length: usize,
    ) -> Answer;

    fn ng_slice_linear(
        shape: Shape, nodes: Floats, nodes_length: usize, values: Floats, values_length: usize,
        axis: usize, point: f64, out: *mut f64, out_length: usize,
    ) -> ShapeAnswer;
    fn ng_slice_linear_uniform(
        shape: Shape, nodes: Floats, nodes_length: usize, values: Floats, values_length: usize,
        axis: usize, point: f64, out: *mut f64, out_length: usize,
    ) -> ShapeAnswer;
    fn ng_slice_nearest(
        shape: Shape, nodes: Floats, nodes_length: usize, values: Floats, values_length: usize,
        axis: usize, point: f64, out: *mut f64, out_length: usize,
    ) -> ShapeAnswer;
    fn ng_slice_step(
        shape: Shape, nodes: Floats, nodes_length: usize, values: Floats, values_length: usize,
        directions: Bytes, directions_length: usize, axis: usize, point: f64, out: *mut f64, out_length: usize,
    ) -> ShapeAnswer;

    fn ng_load(
        image: Bytes, image_length: usize, nodes: *mut f64, nodes_length: usize, values: *mut f64, values_length: usize,
    ) -> ShapeAnswer;
    fn ng_write(
        shape: Shape, nodes: Floats, nodes_length: usize, values: Floats, values_length: usize, image: *mut u8, image_length: usize,
    ) -> WriteAnswer;

    fn ng_count_record(
        tally: *mut Tally, shape: Shape, nodes: Floats, nodes_length: usize, values: Floats, values_length: usize,
        rec: Bytes, rec_length: usize,
    ) -> Answer;
}

// ---- the primitives

pub fn locate_lower_index(grid: &[f64], point: f64) -> IndexAnswer {
    // SAFETY: the pointer and the length are one slice's, and nothing is written.
    unsafe { ng_locate_lower_index(grid.as_ptr(), grid.len(), point) }
}

pub fn locate_axis(grid: &[f64], point: f64) -> AxisAnswer {
    // SAFETY: the pointer and the length are one slice's, and nothing is written.
    unsafe { ng_locate_axis(grid.as_ptr(), grid.len(), point) }
}

pub fn locate_step_index(direction: Direction, grid: &[f64], point: f64) -> IndexAnswer {
    // SAFETY: the pointer and the length are one slice's, and nothing is written.
    unsafe { ng_locate_step_index(direction as u8, grid.as_ptr(), grid.len(), point) }
}

pub fn exact_index(grid: &[f64], lower: usize, point: f64) -> ExactAnswer {
    // SAFETY: the pointer and the length are one slice's, and nothing is written.
    unsafe { ng_exact_index(grid.as_ptr(), grid.len(), lower, point) }
}

pub fn locate_lower_index_uniform(first: f64, step: f64, n: usize, point: f64) -> IndexAnswer {
    // SAFETY: numbers alone.
    unsafe { ng_locate_lower_index_uniform(first, step, n, point) }
}

pub fn validate_uniform_grid(grid: &[f64], tolerance: f64) -> Answer {
    // SAFETY: the pointer and the length are one slice's, and nothing is written.
    unsafe { ng_validate_uniform_grid(grid.as_ptr(), grid.len(), tolerance) }
}

pub fn validate_uniform_grid_epsilon(grid: &[f64], tolerance: Option<f64>) -> Answer {
    let (lent, tolerance) = tolerance.map_or((0, 0.0), |tolerance| (1, tolerance));
    // SAFETY: the pointer and the length are one slice's, and nothing is written.
    unsafe { ng_validate_uniform_grid_epsilon(grid.as_ptr(), grid.len(), lent, tolerance) }
}

// ---- the lookups

/// The three lookups that take a point alone.
macro_rules! lookup {
    ($name:ident, $call:ident) => {
        pub fn $name(table: &Table<'_>, point: &[f64]) -> Answer {
            let Table { counts, nodes: n, values: v } = *table;
            // SAFETY: each pointer and the length after it are one slice's, and nothing is written.
            unsafe { $call(Shape::of(counts), n.as_ptr(), n.len(), v.as_ptr(), v.len(), point.as_ptr(), point.len()) }
        }
    };
}
lookup!(interpolate_linear, ng_interpolate_linear);
lookup!(interpolate_linear_uniform, ng_interpolate_linear_uniform);
lookup!(interpolate_nearest, ng_interpolate_nearest);

pub fn interpolate_step(table: &Table<'_>, point: &[f64], directions: &[Direction]) -> Answer {
    let (shape, Table { nodes: n, values: v, .. }) = (Shape::of(table.counts), *table);
    let (p, d) = (point, directions);
    // SAFETY: each pointer and the length after it are one slice's, and nothing is written. A direction is a byte.
    unsafe { ng_interpolate_step(shape, n.as_ptr(), n.len(), v.as_ptr(), v.len(), p.as_ptr(), p.len(), d.as_ptr().cast(), d.len()) }
}

// ---- the slices

/// The three slices that take a reading alone.
macro_rules! slice {
    ($name:ident, $call:ident) => {
        pub fn $name(table: &Table<'_>, axis: usize, reading: f64, out: &mut [f64]) -> ShapeAnswer {
            let Table { counts, nodes: n, values: v } = *table;
            // SAFETY: each pointer and the length after it are one slice's; `out` alone is written, and as a `&mut` it overlaps none.
            unsafe { $call(Shape::of(counts), n.as_ptr(), n.len(), v.as_ptr(), v.len(), axis, reading, out.as_mut_ptr(), out.len()) }
        }
    };
}
slice!(slice_linear, ng_slice_linear);
slice!(slice_linear_uniform, ng_slice_linear_uniform);
slice!(slice_nearest, ng_slice_nearest);

pub fn slice_step(table: &Table<'_>, directions: &[Direction], axis: usize, reading: f64, out: &mut [f64]) -> ShapeAnswer {
    let (shape, Table { nodes: n, values: v, .. }) = (Shape::of(table.counts), *table);
    let (d, out, length) = (directions, out.as_mut_ptr(), out.len());
    // SAFETY: each pointer and the length after it are one slice's; `out` alone is written, and as a `&mut` it overlaps none. A direction
    // is a byte.
    unsafe { ng_slice_step(shape, n.as_ptr(), n.len(), v.as_ptr(), v.len(), d.as_ptr().cast(), d.len(), axis, reading, out, length) }
}

// ---- the image

pub fn load(image: &[u8], nodes: &mut [f64], values: &mut [f64]) -> ShapeAnswer {
    let (n, v) = (nodes, values);
    // SAFETY: each pointer and the length after it are one slice's; the two that are written are `&mut`, so no two of the three overlap.
    unsafe { ng_load(image.as_ptr(), image.len(), n.as_mut_ptr(), n.len(), v.as_mut_ptr(), v.len()) }
}

pub fn write(table: &Table<'_>, image: &mut [u8]) -> WriteAnswer {
    let Table { counts, nodes: n, values: v } = *table;
    // SAFETY: each pointer and the length after it are one slice's; `image` alone is written, and as a `&mut` it overlaps none.
    unsafe { ng_write(Shape::of(counts), n.as_ptr(), n.len(), v.as_ptr(), v.len(), image.as_mut_ptr(), image.len()) }
}

// ---- the tally

pub fn count_record(tally: &mut Tally, table: &Table<'_>, record: &[u8]) -> Answer {
    let (shape, Table { nodes: n, values: v, .. }) = (Shape::of(table.counts), *table);
    let r = record;
    // SAFETY: `tally` is one, laid out as the header has it; each pointer and the length after it are one slice's. The tally alone is
    // written, and as a `&mut` it overlaps none. Any numbers in it are counts.
    unsafe { ng_count_record(tally, shape, n.as_ptr(), n.len(), v.as_ptr(), v.len(), r.as_ptr(), r.len()) }
}
