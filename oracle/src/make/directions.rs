//! Directions for the axes of a table.

use super::numbers::Seed;

/// Bit d of the mask is the direction of axis d.
pub fn of_mask(mask: usize, axes: usize) -> Vec<u8> {
    (0..axes).map(|d| (mask >> d & 1) as u8).collect()
}

pub fn all(axes: usize) -> Vec<Vec<u8>> {
    (0..1 << axes).map(|mask| of_mask(mask, axes)).collect()
}

pub fn drawn(axes: usize, seed: &mut Seed) -> Vec<u8> {
    of_mask(seed.under(1 << axes), axes)
}
