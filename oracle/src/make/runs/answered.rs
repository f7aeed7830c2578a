//! Accepted tables of 1 to 4 axes with records of every kind: the axes and values of the
//! list of calls, and the bench cases.

use super::{each_kind, run, Run};
use crate::make::numbers::{two_to, Seed, LARGEST};
use crate::make::tables::{self, of_kind, with_values, Axes};
use crate::make::values::KINDS;
use crate::make::{linear_tables, points};
use crate::table::Table;

fn bench(table: &Table, readings: &[&[f64]]) -> Run {
    let mut run = run(table, &[]);
    for point in readings {
        each_kind(point, &mut run);
    }
    run
}

/// P2 to P7, P9 and P10.
fn bench_cases() -> Vec<Run> {
    let one = |nodes: &[f64], values: &[f64]| with_values(&[nodes.to_vec()], values.to_vec());
    let a = one(&[0.0, 1.0, 2.0, 4.0], &[10.0, 11.0, 12.0, 13.0]);
    let unit = one(&[-1.0, 1.0], &[10.0, 20.0]);
    let wide = one(&[0.0, two_to(1000)], &[10.0, 20.0]);
    let square = with_values(&[vec![0.0, 1.0], vec![0.0, 1.0]], vec![0.0, 1.0, 2.0, 3.0]);
    let even = one(&[0.0, 1.0, 2.0 + two_to(-42)], &[10.0, 11.0, 13.0]);
    let uneven = one(&[0.0, 1.0, 2.0 + two_to(-41)], &[10.0, 11.0, 13.0]);
    vec![
        bench(&a, &[&[0.0], &[1.0], &[3.0], &[4.0], &[-1.0], &[9.0]]),
        bench(&unit, &[&[1.0 - two_to(-53)], &[-two_to(-60)]]),
        bench(&wide, &[&[two_to(-1074)]]),
        bench(&square, &[&[0.5, 0.25]]),
        bench(&even, &[&[1.5], &[2.0 + two_to(-42)]]),
        bench(&uneven, &[&[1.5], &[2.0 + two_to(-41)]]),
    ]
}

/// 12 of LinearUniform: a fraction above 1 between opposite values, and a distance that
/// overflows.
fn not_finite_results() -> Vec<Run> {
    let last = 2.0 + two_to(-42);
    let bent = with_values(&[vec![0.0, 1.0, last]], vec![0.0, -LARGEST, LARGEST]);
    let far = with_values(&[vec![-LARGEST, 0.0, LARGEST]], vec![10.0, 11.0, 12.0]);
    vec![
        bench(&bent, &[&[last], &[2.0], &[1.5], &[0.5]]),
        bench(&far, &[&[LARGEST], &[1.0], &[-1.0], &[-LARGEST]]),
    ]
}

/// At most so many points, spread over the whole walk.
fn read(axes: &Axes, place: usize, seed: &mut Seed) -> Run {
    let mut run = run(&of_kind(axes, KINDS[place % 5], seed), &[]);
    let walk = points::walk(axes, seed);
    for point in walk.iter().step_by(1 + walk.len() / 12) {
        each_kind(point, &mut run);
    }
    run
}

pub fn runs(seed: &mut Seed) -> Vec<Run> {
    let all = [
        linear_tables::uniform(),
        tables::of_one_axis(),
        linear_tables::apart(seed),
    ]
    .concat();
    let mut runs = [bench_cases(), not_finite_results()].concat();
    for (place, axes) in all.iter().enumerate() {
        runs.push(read(axes, place, seed));
    }
    runs
}
