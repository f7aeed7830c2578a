//! Records that are refused or cut short, on tables of 1 to 4 axes.

use super::{each_kind, run, Run};
use crate::make::images::put_record;
use crate::make::numbers::{above, below, not_finite, LARGEST};
use crate::make::tables::with_values;
use crate::table::Table;

/// Axis d is 0, 1, 2 + d; so only axis 0 is uniform.
fn table(axes: usize) -> Table {
    let nodes = |d: usize| vec![0.0, 1.0, 2.0 + d as f64];
    let grid: Vec<Vec<f64>> = (0..axes).map(nodes).collect();
    let size = 3usize.pow(axes as u32);
    with_values(&grid, (0..size).map(|place| place as f64 / 4.0).collect())
}

/// One reading on each axis in turn, then on all of them.
fn readings(axes: usize, wild: &[f64]) -> Run {
    let mut run = run(&table(axes), &[]);
    for &reading in wild {
        for axis in 0..axes {
            let mut point = vec![0.5; axes];
            point[axis] = reading;
            each_kind(&point, &mut run);
        }
        each_kind(&vec![reading; axes], &mut run);
    }
    run
}

/// Not finite on one axis and outside on another: 10 comes before 11.
fn both(axes: usize) -> Run {
    let mut run = run(&table(axes), &[]);
    for first in 0..axes {
        for second in 0..axes {
            let mut point = vec![0.5; axes];
            point[first] = -1.0;
            point[second] = f64::NAN;
            each_kind(&point, &mut run);
        }
    }
    run
}

/// Every length of a last record that is short, after one whole record or none, its kind
/// known or not.
fn cut(axes: usize) -> Vec<Run> {
    let whole = run(&table(axes), &[]);
    let mut runs = Vec::new();
    for (before, kind) in [(0, 0), (1, 1), (1, 200)] {
        let mut record = Vec::new();
        put_record(kind, &vec![f64::NAN; axes], &mut record);
        for length in 1..record.len() {
            let mut run = whole.clone();
            for _ in 0..before {
                put_record(2, &vec![0.5; axes], &mut run);
            }
            run.extend(&record[..length]);
            runs.push(run);
        }
    }
    runs
}

/// Every byte as a kind, at a good point, at a point that is refused, and in between a
/// record that is answered.
fn kinds() -> Run {
    let mut run = run(&table(1), &[]);
    for kind in 0..=255 {
        put_record(kind, &[0.75], &mut run);
        put_record(kind, &[f64::NAN], &mut run);
        put_record(2, &[1.0], &mut run);
        put_record(kind, &[9.0], &mut run);
    }
    run
}

pub fn runs() -> Vec<Run> {
    let outside = [below(0.0), -1.0, -LARGEST, above(2.0), LARGEST];
    let edges = [0.0, -0.0, 2.0, below(2.0)];
    let mut runs = vec![kinds()];
    for axes in 1..=4 {
        runs.push(run(&table(axes), &[]));
        runs.push(readings(axes, &not_finite()));
        runs.push(readings(axes, &outside));
        runs.push(readings(axes, &edges));
        runs.push(both(axes));
        runs.extend(cut(axes));
    }
    runs
}
