//! Tables with a node or a value that is refused.

use super::list::List;
use super::numbers::{not_finite, two_to, Seed, LARGEST};
use super::tables::{self, Axes};
use crate::table::Table;

const ORDINARY: [f64; 3] = [-2.0, 0.5, 3.0];

fn plain(list: &mut List, table: &Table) {
    list.table(table);
    let count = table.axes as usize;
    list.ask_both(&[1, 0, 0, 1][..count], &[0.5; 4][..count]);
}

/// Lookups whose own faults stand behind those of nodes and values.
fn faulty(list: &mut List, axes: usize) {
    list.ask_first(&[f64::NAN; 4][..axes]);
    list.ask_first(&[LARGEST; 4][..axes]);
    list.ask_second(&[2; 4][..axes], &[f64::INFINITY; 4][..axes]);
}

/// Axes of two nodes, but for one.
fn with_axis(axes: usize, d: usize, nodes: Vec<f64>) -> Axes {
    let mut all = vec![vec![-1.0, 1.0]; axes];
    all[d] = nodes;
    all
}

/// Three nodes with a fault 4 at each place, 5 and 6 at each upper node. The last 6 is a
/// gap that is a tie and rounds out of range.
fn bad_axes(turn: usize) -> Axes {
    let mut bad = vec![
        vec![0.5, 0.5, 3.0],
        vec![-2.0, 0.5, 0.25],
        vec![0.0, -0.0, 1.0],
        vec![-1.0, -0.0, 0.0],
        vec![LARGEST, -LARGEST, 0.0],
        vec![-LARGEST, two_to(1000), LARGEST],
        vec![-LARGEST, -two_to(1023), LARGEST],
        vec![-two_to(971), -two_to(970), LARGEST],
    ];
    for place in 0..3 {
        let mut nodes = ORDINARY.to_vec();
        nodes[place] = not_finite()[(turn + place) % 5];
        bad.push(nodes);
    }
    bad
}

fn on_each_axis(list: &mut List, seed: &mut Seed) {
    for axes in 1..=4 {
        for d in 0..axes {
            for nodes in bad_axes(axes + d) {
                let axes = with_axis(axes, d, nodes);
                plain(list, &tables::over(&axes, seed));
            }
            faulty(list, axes);
        }
    }
}

/// Several faults on one axis: the one at the lowest node is told.
fn on_one_axis(list: &mut List, seed: &mut Seed) {
    let nan = f64::NAN;
    let bad = [
        vec![0.0, 0.0, 1.0, nan],
        vec![0.0, nan, 1.0, 1.0],
        vec![1.0, 0.0, f64::INFINITY, 2.0],
        vec![-LARGEST, LARGEST, LARGEST, nan],
        vec![-LARGEST, LARGEST, nan, 0.0],
        vec![1.0, 0.0, -LARGEST, LARGEST],
        vec![0.0, 1.0, nan, -1.0],
        vec![nan, 0.0, 0.0, -1.0],
        vec![-LARGEST, -two_to(1023), LARGEST, LARGEST],
    ];
    for nodes in bad {
        for (axes, d) in [(1, 0), (2, 1), (4, 2)] {
            let axes = with_axis(axes, d, nodes.clone());
            plain(list, &tables::over(&axes, seed));
        }
        faulty(list, 4);
    }
}

/// Faults on two axes: the lower axis is told, whatever the numbers and the nodes.
fn on_two_axes(list: &mut List, seed: &mut Seed) {
    let falls = vec![0.0, 1.0, 1.0];
    let infinite = vec![f64::NEG_INFINITY, 0.0, 1.0];
    let wide = vec![-LARGEST, LARGEST];
    let ends = vec![0.0, 1.0, f64::NAN];
    let good = ORDINARY.to_vec();
    for axes in [
        vec![falls.clone(), infinite.clone()],
        vec![wide.clone(), infinite.clone(), good.clone()],
        vec![ends.clone(), falls.clone()],
        vec![good.clone(), wide.clone(), falls.clone()],
        vec![good.clone(), ends, infinite.clone(), wide.clone()],
        vec![good.clone(), good.clone(), wide, infinite],
        vec![good.clone(), good, falls.clone(), falls],
    ] {
        plain(list, &tables::over(&axes, seed));
    }
}

/// Nodes that rise across the axes' border are no fault, nor are those that fall there.
fn borders(list: &mut List, seed: &mut Seed) {
    for axes in [
        vec![vec![0.0, 1.0], vec![1.0, 2.0], vec![2.0, 3.0]],
        vec![vec![0.0, LARGEST], vec![-LARGEST, 0.75], vec![0.25, 1.0]],
    ] {
        plain(list, &tables::over(&axes, seed));
    }
}

/// 7 at the first, a middle and the last place, and at two places.
fn values(list: &mut List, seed: &mut Seed) {
    let axes = [
        ORDINARY.to_vec(),
        vec![-1.0, 1.0],
        vec![0.0, 0.5, 2.0],
        vec![0.25, 0.75],
    ];
    for count in 1..=4 {
        let good = tables::over(&axes[..count], seed);
        let last = good.values.len() - 1;
        let places = [[0, 0], [last / 2, last / 2], [last, last], [1, last]];
        for (turn, places) in places.into_iter().enumerate() {
            let mut table = good.clone();
            for place in places {
                table.values[place] = not_finite()[(count + turn) % 5];
            }
            plain(list, &table);
            faulty(list, count);
        }
    }
}

/// The last of 4,096 values, which no lookup near the first nodes would use.
fn last_of_many(list: &mut List, seed: &mut Seed) {
    let axis: Vec<f64> = (0..64).map(f64::from).collect();
    let mut table = tables::over(&[axis.clone(), axis], seed);
    table.values[4095] = f64::NAN;
    plain(list, &table);
}

/// Nodes go before values.
fn nodes_and_values(list: &mut List, seed: &mut Seed) {
    for axes in 1..=4 {
        let nodes = bad_axes(axes)[3 * axes - 2].clone();
        let mut table = tables::over(&with_axis(axes, axes - 1, nodes), seed);
        table.values[0] = f64::NAN;
        plain(list, &table);
        faulty(list, axes);
    }
}

pub fn add(list: &mut List, seed: &mut Seed) {
    on_each_axis(list, seed);
    on_one_axis(list, seed);
    on_two_axes(list, seed);
    borders(list, seed);
    values(list, seed);
    last_of_many(list, seed);
    nodes_and_values(list, seed);
}

/// The same without the table of thousands of values.
pub fn add_small(list: &mut List, seed: &mut Seed) {
    on_each_axis(list, seed);
    on_one_axis(list, seed);
    on_two_axes(list, seed);
    borders(list, seed);
    values(list, seed);
    nodes_and_values(list, seed);
}
