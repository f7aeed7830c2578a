//! Readings for a table, all of them within its axes.

use super::numbers::{above, below, two_to, Seed, LEAST};
use super::readings;

/// Halfway between two nodes, beside that, and off it by parts of the gap which the two
/// rounded distances do not tell apart, or only just do.
fn ties(nodes: &[f64], picks: &[usize]) -> Vec<f64> {
    let mut found = Vec::new();
    for &i in picks {
        if i + 1 < nodes.len() {
            let gap = nodes[i + 1] - nodes[i];
            let middle = nodes[i] + gap / 2.0;
            found.extend([middle, below(middle), above(middle)]);
            found.push(middle - gap * two_to(-52));
            found.push(middle - gap * two_to(-53));
            found.push(middle - gap * two_to(-54));
        }
    }
    found
}

fn near_zero() -> Vec<f64> {
    vec![0.0, -0.0, LEAST, -LEAST, two_to(-60), -two_to(-60)]
}

fn within(nodes: &[f64], readings: Vec<f64>) -> Vec<f64> {
    let range = nodes[0]..=nodes[nodes.len() - 1];
    readings.into_iter().filter(|r| range.contains(r)).collect()
}

/// The readings of one axis, each once.
pub fn of_axis(nodes: &[f64], seed: &mut Seed) -> Vec<f64> {
    let picks = readings::picked(nodes.len(), seed);
    let intervals = readings::picked(nodes.len().min(3), seed);
    let found = readings::kept(vec![
        readings::beside(nodes, &picks),
        ties(nodes, &picks),
        readings::between(nodes, &intervals, seed),
        near_zero(),
    ]);
    within(nodes, found)
}

/// On the nodes, beside them, halfway and at a drawn place between them.
pub fn blends_of_axis(nodes: &[f64], seed: &mut Seed) -> Vec<f64> {
    let picks = readings::picked(nodes.len(), seed);
    let found = readings::kept(vec![
        readings::beside(nodes, &picks),
        readings::between(nodes, &picks, seed),
        vec![0.0, -0.0],
    ]);
    within(nodes, found)
}

/// Every choice of one number from each list, that of the last list changing fastest.
pub fn product(lists: &[Vec<f64>]) -> Vec<Vec<f64>> {
    let mut points: Vec<Vec<f64>> = vec![vec![]];
    for list in lists {
        let mut longer = Vec::new();
        for point in &points {
            for &number in list {
                longer.push([point, [number].as_slice()].concat());
            }
        }
        points = longer;
    }
    points
}

fn shuffled(mut list: Vec<f64>, seed: &mut Seed) -> Vec<f64> {
    for i in (1..list.len()).rev() {
        list.swap(i, seed.under(i + 1));
    }
    list
}

/// Points in which every reading of every axis is met, in a drawn order.
pub fn walk(axes: &[Vec<f64>], seed: &mut Seed) -> Vec<Vec<f64>> {
    walk_over(axes, of_axis, seed)
}

/// The same with readings for a blend.
pub fn blend_walk(axes: &[Vec<f64>], seed: &mut Seed) -> Vec<Vec<f64>> {
    walk_over(axes, blends_of_axis, seed)
}

fn walk_over(
    axes: &[Vec<f64>],
    of_axis: impl Fn(&[f64], &mut Seed) -> Vec<f64>,
    seed: &mut Seed,
) -> Vec<Vec<f64>> {
    let mut lists = Vec::new();
    for nodes in axes {
        let readings = of_axis(nodes, seed);
        lists.push(shuffled(readings, seed));
    }
    let most = lists.iter().map(Vec::len).max().unwrap_or(0);
    let point = |i: usize| lists.iter().map(|list| list[i % list.len()]).collect();
    (0..most).map(point).collect()
}

pub fn first(axes: &[Vec<f64>]) -> Vec<f64> {
    axes.iter().map(|nodes| nodes[0]).collect()
}

pub fn last(axes: &[Vec<f64>]) -> Vec<f64> {
    axes.iter().map(|nodes| nodes[nodes.len() - 1]).collect()
}

/// On every axis halfway up its first interval.
pub fn middle(axes: &[Vec<f64>]) -> Vec<f64> {
    let half = |nodes: &Vec<f64>| nodes[0] + (nodes[1] - nodes[0]) / 2.0;
    axes.iter().map(half).collect()
}

/// A drawn place strictly inside an interval of every axis, where there is room.
pub fn drawn(axes: &[Vec<f64>], seed: &mut Seed) -> Vec<f64> {
    let mut point = Vec::new();
    for nodes in axes {
        let i = seed.under(nodes.len() - 1);
        let part = 0.125 + 0.75 * seed.part();
        point.push(nodes[i] + (nodes[i + 1] - nodes[i]) * part);
    }
    point
}

/// On a drawn node of the axes in the mask, bit d for axis d; strictly inside an interval
/// of the others.
pub fn mixed(axes: &[Vec<f64>], mask: usize, seed: &mut Seed) -> Vec<f64> {
    let mut point = drawn(axes, seed);
    for (d, nodes) in axes.iter().enumerate() {
        if mask >> d & 1 == 1 {
            point[d] = nodes[seed.under(nodes.len())];
        }
    }
    point
}
