//! Nearest and Step on accepted tables.

use super::list::List;
use super::numbers::Seed;
use super::tables::{self, Axes};
use super::{directions, points};

fn at(list: &mut List, point: &[f64], seed: &mut Seed) {
    let drawn = directions::drawn(point.len(), seed);
    list.nearest_and_stepped(&drawn, point);
}

fn opened(list: &mut List, axes: &Axes, seed: &mut Seed) {
    list.table(&tables::over(axes, seed));
    for point in points::walk(axes, seed) {
        at(list, &point, seed);
    }
}

fn small(list: &mut List, axes: &Axes, seed: &mut Seed) {
    opened(list, axes, seed);
    for point in points::product(axes) {
        at(list, &point, seed);
    }
}

/// All directions at the ends, on ties, between nodes, and on nodes of some axes alone.
fn every_direction(list: &mut List, axes: &Axes, seed: &mut Seed) {
    let first = points::first(axes);
    let between = points::drawn(axes, seed);
    let mixed = |odd: usize| {
        let pick = |d: usize| if d % 2 == odd { first[d] } else { between[d] };
        (0..axes.len()).map(pick).collect()
    };
    let mut read = vec![mixed(0), mixed(1), points::last(axes), points::middle(axes)];
    read.extend([first.clone(), between.clone()]);
    for directions in directions::all(axes.len()) {
        for point in &read {
            list.stepped(&directions, point);
        }
    }
}

fn large(list: &mut List, axes: &Axes, seed: &mut Seed) {
    opened(list, axes, seed);
    for point in [
        points::first(axes),
        points::last(axes),
        points::middle(axes),
    ] {
        at(list, &point, seed);
    }
    for _ in 0..16 {
        let point = points::drawn(axes, seed);
        at(list, &point, seed);
    }
}

pub fn add(list: &mut List, seed: &mut Seed) {
    for tables in [
        tables::of_one_axis(),
        tables::of_two_axes(seed),
        tables::of_three_axes(seed),
        tables::of_four_axes(seed),
    ] {
        for (place, axes) in tables.iter().enumerate() {
            small(list, axes, seed);
            if place == 1 {
                every_direction(list, axes, seed);
            }
        }
    }
    for axes in tables::large(seed) {
        large(list, &axes, seed);
    }
}
