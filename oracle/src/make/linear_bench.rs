//! The bench cases of document 01 that concern the two linears and their slices, and its
//! whole run.

use super::list::List;
use super::numbers::two_to;
use super::tables;
use crate::rules::Rule;

/// P9.
fn square(list: &mut List) {
    let axes = vec![vec![0.0, 1.0]; 2];
    list.table(&tables::with_values(&axes, vec![0.0, 1.0, 2.0, 3.0]));
    list.linears(&[0.5, 0.25]);
    list.slice(&Rule::Linear, 0, 0.5, 2);
    list.slice(&Rule::LinearUniform, 0, 0.5, 2);
}

/// The run's first and third record.
fn whole_run(list: &mut List) {
    list.table(&tables::with_values(&[vec![0.0, 2.0]], vec![10.0, 20.0]));
    list.linears(&[0.5]);
    list.linears(&[3.0]);
}

/// The axes of P2, P3 and P4.
fn fractions(list: &mut List) {
    let a = vec![0.0, 1.0, 2.0, 4.0];
    list.table(&tables::with_values(&[a], vec![10.0, 11.0, 12.0, 13.0]));
    list.linears(&[1.0]);
    list.linears(&[3.0]);
    for values in [[10.0, 11.0], [-0.0, -0.0], [1.0e308, -1.0]] {
        list.table(&tables::with_values(&[vec![-1.0, 1.0]], values.to_vec()));
        list.linears(&[1.0 - two_to(-53)]);
    }
    list.table(&tables::with_values(
        &[vec![0.0, two_to(1000)]],
        vec![10.0, 11.0],
    ));
    list.linears(&[two_to(-1074)]);
}

/// P10.
fn uniform(list: &mut List) {
    for k in [-42, -41] {
        let nodes = vec![0.0, 1.0, 2.0 + two_to(k)];
        list.table(&tables::with_values(&[nodes], vec![10.0, 11.0, 13.0]));
        list.linears(&[1.5]);
    }
}

pub fn add(list: &mut List) {
    square(list);
    whole_run(list);
    fractions(list);
    uniform(list);
}
