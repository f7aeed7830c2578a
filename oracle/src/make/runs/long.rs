//! One run of many blocks, which `crates/lookup` is run on.

use super::{run, Run};
use crate::make::axes::{linspace, summed};
use crate::make::images::put_record;
use crate::make::numbers::{not_finite, Seed};
use crate::make::points;
use crate::make::tables::of_kind;
use crate::make::values::Kind;

const RECORDS: usize = 5_000;

/// Three axes, so that a record has 25 bytes and a block of 32,768 ends within one. Records of
/// each kind, 0 to 5, on nodes and between them; one in 11 outside an axis, one in 13 with a
/// reading that is not finite; at last a short one.
pub fn long() -> Run {
    let seed = &mut Seed::new();
    let axes = vec![
        linspace(-1.0, 1.0, 5),
        summed(0.0, 0.25, 4),
        summed(0.0, 1.0, 3),
    ];
    let mut run = run(&of_kind(&axes, Kind::Mild, seed), &[]);
    for place in 0..RECORDS {
        let mut point = points::mixed(&axes, seed.under(8), seed);
        let axis = seed.under(3);
        if place % 11 == 0 {
            point[axis] = if seed.under(2) == 0 { -9.0 } else { 9.0 };
        }
        if place % 13 == 0 {
            point[axis] = not_finite()[seed.under(5)];
        }
        put_record(seed.under(6) as u8, &point, &mut run);
    }
    put_record(2, &points::middle(&axes), &mut run);
    run.truncate(run.len() - 1);
    run
}
