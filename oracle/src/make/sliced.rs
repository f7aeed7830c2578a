//! Slices of accepted tables.

use super::list::List;
use super::numbers::{above, below, Seed, LARGEST};
use super::tables::{self, Axes};
use super::values::{Kind, KINDS};
use super::{directions, linear_tables};
use crate::rules::Rule;

/// A table that stands in the list.
struct Open<'a> {
    axes: &'a [Vec<f64>],
    /// What the room leaves over changes from slice to slice.
    turn: usize,
}

impl Open<'_> {
    fn slice(&mut self, list: &mut List, rule: &Rule, axis: usize, reading: f64) {
        let product: usize = self.axes.iter().map(Vec::len).product();
        let over = [0, 1, 3][self.turn % 3];
        self.turn += 1;
        list.slice(rule, axis, reading, product / self.axes[axis].len() + over);
    }
}

fn opened<'a>(list: &mut List, axes: &'a Axes, kind: Kind, seed: &mut Seed) -> Open<'a> {
    list.table(&tables::of_kind(axes, kind, seed));
    Open { axes, turn: 0 }
}

/// The ends, a drawn node and the numbers beside it, halfway and a drawn place.
fn readings(nodes: &[f64], seed: &mut Seed) -> Vec<f64> {
    let last = nodes.len() - 1;
    let node = nodes[seed.under(nodes.len())];
    let i = seed.under(last);
    let gap = nodes[i + 1] - nodes[i];
    let mut found = vec![nodes[0], nodes[last], node, below(node), above(node)];
    found.extend([nodes[i] + gap / 2.0, nodes[i] + gap * seed.part()]);
    found.retain(|reading| (nodes[0]..=nodes[last]).contains(reading));
    found
}

/// Axis 0 at all of its readings.
fn linears(list: &mut List, open: &mut Open, rules: &[Rule], seed: &mut Seed) {
    for reading in readings(&open.axes[0], seed) {
        for rule in rules {
            open.slice(list, rule, 0, reading);
        }
    }
}

/// Every axis, by each rule at two of its readings.
fn picks(list: &mut List, open: &mut Open, seed: &mut Seed) {
    for axis in 0..open.axes.len() {
        let readings = readings(&open.axes[axis], seed);
        for _ in 0..2 {
            let at = readings[seed.under(readings.len())];
            open.slice(list, &Rule::Nearest, axis, at);
            let drawn = directions::drawn(open.axes.len(), seed);
            let at = readings[seed.under(readings.len())];
            open.slice(list, &Rule::Step(drawn), axis, at);
        }
    }
}

/// All directions: those of the other axes change nothing.
fn every_direction(list: &mut List, seed: &mut Seed) {
    let axes = vec![vec![0.0, 1.0, 2.0], vec![-1.0, 1.0], vec![5.0, 6.0]];
    let mut open = opened(list, &axes, Kind::Wide, seed);
    for directions in directions::all(3) {
        let rule = Rule::Step(directions);
        for (axis, reading) in [(0, 0.5), (0, 1.0), (1, -0.5), (2, 5.5), (2, 6.0)] {
            open.slice(list, &rule, axis, reading);
        }
    }
}

/// Axes so wide that the uniform index's distance overflows.
fn wide(list: &mut List, seed: &mut Seed) {
    let axes = vec![vec![-LARGEST, 0.0, LARGEST], vec![0.0, 1.0, 2.0]];
    for kind in KINDS {
        let mut open = opened(list, &axes, kind, seed);
        for reading in [-LARGEST, -1.0, 0.0, 1.0, LARGEST / 2.0, LARGEST] {
            open.slice(list, &Rule::Linear, 0, reading);
            open.slice(list, &Rule::LinearUniform, 0, reading);
        }
    }
}

/// By some rules, on some axes, each at a third of the way along an interval: for the
/// tables with the most values, which stand in the list already.
pub fn few(list: &mut List, axes: &Axes, slices: &[(Rule, usize)]) {
    let mut open = Open { axes, turn: 0 };
    for (turn, (rule, axis)) in slices.iter().enumerate() {
        let nodes = &axes[*axis];
        let i = (7 * turn + 3) % (nodes.len() - 1);
        let reading = nodes[i] + (nodes[i + 1] - nodes[i]) / 3.0;
        open.slice(list, rule, *axis, reading);
    }
}

pub fn add(list: &mut List, seed: &mut Seed) {
    let both = [Rule::Linear, Rule::LinearUniform];
    for (place, axes) in linear_tables::of_many_axes().iter().enumerate() {
        let mut open = opened(list, axes, Kind::Mild, seed);
        linears(list, &mut open, &both, seed);
        let mut open = opened(list, axes, KINDS[1 + place % 4], seed);
        linears(list, &mut open, &both, seed);
    }
    for (place, axes) in linear_tables::apart(seed).iter().enumerate() {
        let mut open = opened(list, axes, KINDS[place % 5], seed);
        linears(list, &mut open, &both[..1], seed);
        let mut open = opened(list, axes, Kind::Wide, seed);
        picks(list, &mut open, seed);
    }
    every_direction(list, seed);
    wide(list, seed);
}
