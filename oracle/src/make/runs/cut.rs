//! The whole run of document 01 and one of two axes, each cut after every byte.

use super::{run, Run};
use crate::make::tables::with_values;

pub fn paper() -> Run {
    let table = with_values(&[vec![0.0, 2.0]], vec![10.0, 20.0]);
    run(&table, &[(0, &[0.5]), (2, &[1.0]), (0, &[3.0])])
}

/// P9's table.
fn square() -> Run {
    let table = with_values(&[vec![0.0, 1.0], vec![0.0, 1.0]], vec![0.0, 1.0, 2.0, 3.0]);
    run(
        &table,
        &[(0, &[0.5, 0.25]), (4, &[0.5, 1.0]), (1, &[0.5, -1.0])],
    )
}

pub fn runs() -> Vec<Run> {
    let mut runs = Vec::new();
    for whole in [paper(), square()] {
        for length in (0..=whole.len()).rev() {
            runs.push(whole[..length].to_vec());
        }
    }
    runs
}
