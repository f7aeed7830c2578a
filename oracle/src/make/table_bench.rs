//! The bench cases of document 01 that concern Nearest and Step, and its whole run.

use super::list::List;
use super::numbers::two_to;
use crate::table::Table;

fn of_one_axis(nodes: &[f64], values: &[f64]) -> Table {
    Table {
        axes: 1,
        counts: [nodes.len() as u16, 0, 0, 0],
        nodes: nodes.to_vec(),
        values: values.to_vec(),
    }
}

/// P5 and P7.
fn on_a(list: &mut List) {
    list.table(&of_one_axis(
        &[0.0, 1.0, 2.0, 4.0],
        &[10.0, 11.0, 12.0, 13.0],
    ));
    list.nearest(&[3.0]);
    for reading in [1.0, 3.0, 4.0] {
        list.stepped(&[0], &[reading]);
    }
    for reading in [0.0, 1.0, 3.0] {
        list.stepped(&[1], &[reading]);
    }
}

/// P6.
fn rounded_tie(list: &mut List) {
    list.table(&of_one_axis(&[-1.0, 1.0], &[10.0, 11.0]));
    list.nearest(&[-two_to(-60)]);
}

/// P9's table.
fn square(list: &mut List) {
    list.table(&Table {
        axes: 2,
        counts: [2, 2, 0, 0],
        nodes: vec![0.0, 1.0, 0.0, 1.0],
        values: vec![0.0, 1.0, 2.0, 3.0],
    });
    list.nearest(&[0.5, 0.25]);
    for directions in [[0, 0], [0, 1], [1, 0], [1, 1]] {
        list.stepped(&directions, &[0.5, 0.25]);
    }
}

/// The run's second and third record, and its table under Step.
fn whole_run(list: &mut List) {
    list.table(&of_one_axis(&[0.0, 2.0], &[10.0, 20.0]));
    for reading in [1.0, 3.0] {
        list.nearest(&[reading]);
        list.stepped(&[0], &[reading]);
        list.stepped(&[1], &[reading]);
    }
}

pub fn add(list: &mut List) {
    on_a(list);
    rounded_tie(list);
    square(list);
    whole_run(list);
}
