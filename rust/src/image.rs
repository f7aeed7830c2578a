//! The table image: the loader.

use crate::{ffi, Refusal, Shape};

/// Reads a table out of an image, to the start of `nodes` and of `values`, which may be longer, and gives its shape.
///
/// Refusals, in this order: under 40 bytes and byte 0 (13), byte 1 (1), bytes 2-3 and the length (13), counts axis by axis (2, or 13 if
/// unused), their product (2), unused offsets and bytes 36-39 (13), each area (14), two areas that share a byte (18), room (15, place 0
/// nodes, 1 values), then 4 to 7.
///
/// 14 and 18 tell an area by its number: that of an axis is the axis, that of the values the number of axes. 18 gives two of them, axis
/// below place: of the pairs 0 1, 0 2, .., 1 2, .. the first that shares a byte. Areas may touch, lie apart and in any order.
///
/// ```
/// use ngamsothul::{load, Table, MOST_BYTES};
///
/// let mut image = [0; MOST_BYTES];
/// let length = Table::new(&[2], &[0.0, 2.0], &[10.0, 20.0]).write(&mut image)?;
/// let (mut nodes, mut values) = ([0.0; 64], [0.0; 64]);
/// let shape = load(&image[..length], &mut nodes, &mut values)?;
/// assert_eq!(shape.table(&nodes, &values).linear(&[0.5]), Ok(12.5));
/// # Ok::<(), ngamsothul::Refusal>(())
/// ```
pub fn load(image: &[u8], nodes: &mut [f64], values: &mut [f64]) -> Result<Shape, Refusal> {
    ffi::load(image, nodes, values).judged()
}
