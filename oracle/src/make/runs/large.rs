//! As many nodes, values, bytes of an image and records as the bounds leave.

use super::{each_kind, run, Run};
use crate::image::header::LONGEST;
use crate::make::axes::{linspace, summed};
use crate::make::images::put_record;
use crate::make::numbers::Seed;
use crate::make::points;
use crate::make::tables::{of_kind, Axes};
use crate::make::values::Kind;

fn axes() -> Vec<Axes> {
    vec![
        vec![summed(0.0, 0.1, 64)],
        vec![linspace(-1.0, 1.0, 64), summed(0.0, 0.25, 64)],
        vec![
            linspace(0.0, 3.0, 16),
            summed(0.0, 1.0, 16),
            linspace(-1.0, 1.0, 16),
        ],
        vec![summed(0.0, 1.0, 8); 4],
    ]
}

fn read(axes: &Axes, seed: &mut Seed) -> Run {
    let mut run = run(&of_kind(axes, Kind::Mild, seed), &[]);
    for point in [
        points::first(axes),
        points::last(axes),
        points::middle(axes),
    ] {
        each_kind(&point, &mut run);
    }
    for _ in 0..8 {
        each_kind(&points::drawn(axes, seed), &mut run);
    }
    run
}

/// The largest table in the longest image, and the same with its last value not finite.
fn longest(seed: &mut Seed) -> Vec<Run> {
    let axes = &axes()[1];
    let mut sound = run(&of_kind(axes, Kind::Mild, seed), &[]);
    let end = sound.len();
    sound.resize(LONGEST, 0);
    sound[4..8].copy_from_slice(&(LONGEST as u32).to_le_bytes());
    let mut bad = sound.clone();
    bad[end - 8..end].copy_from_slice(&f64::INFINITY.to_bits().to_le_bytes());
    [sound, bad]
        .map(|mut run| {
            each_kind(&points::middle(axes), &mut run);
            run
        })
        .to_vec()
}

/// Many records, so that they do not fit a buffer, for each number of axes.
fn many(count: usize, seed: &mut Seed) -> Run {
    let axes = vec![vec![-1.0, 0.0, 1.0]; count];
    let mut run = run(&of_kind(&axes, Kind::Wide, seed), &[]);
    for place in 0..1100 {
        let point = points::mixed(&axes, place % 16, seed);
        put_record((place % 5) as u8, &point, &mut run);
    }
    run
}

pub fn runs(seed: &mut Seed) -> Vec<Run> {
    let mut runs = longest(seed);
    for axes in axes() {
        runs.push(read(&axes, seed));
    }
    for count in 1..=4 {
        runs.push(many(count, seed));
    }
    runs
}
