//! Slices with a fault of their own on accepted tables, and slices of refused tables.

use super::list::List;
use super::numbers::{above, below, not_finite, two_to, Seed, LARGEST};
use super::tables::{self, Axes};
use super::values::Kind;
use crate::rules::Rule;
use crate::table::Table;

/// The four, Step with good directions for so many axes.
fn rules(axes: usize) -> Vec<Rule> {
    let directions = [1, 0, 0, 1][..axes].to_vec();
    vec![
        Rule::Nearest,
        Rule::Step(directions),
        Rule::Linear,
        Rule::LinearUniform,
    ]
}

/// The axes that a rule's slice may remove.
fn removable(rule: &Rule, axes: usize) -> usize {
    if rule.is_linear() {
        1
    } else {
        axes
    }
}

fn good() -> Axes {
    vec![vec![0.0, 1.0, 2.0], vec![-1.0, 1.0], vec![4.0, 4.5, 5.0]]
}

const ROOM: usize = 10;

/// 16: axes that are not there, or are not axis 0.
fn axes(list: &mut List, seed: &mut Seed) {
    for count in 1..=3 {
        list.table(&tables::of_kind(&good()[..count], Kind::Mild, seed));
        for rule in rules(count) {
            for axis in [0, 1, 2, 3, 4, 255, u32::MAX as usize] {
                list.slice(&rule, axis, 0.5, ROOM);
            }
            list.slice(&rule, 7, f64::NAN, 0);
        }
    }
}

/// 10 and 11, of the one reading, naming the axis.
fn readings(list: &mut List, seed: &mut Seed) {
    let axes = good();
    list.table(&tables::of_kind(&axes, Kind::Mild, seed));
    for rule in rules(3) {
        for axis in 0..removable(&rule, 3) {
            let (first, last) = (axes[axis][0], axes[axis][axes[axis].len() - 1]);
            for reading in not_finite() {
                list.slice(&rule, axis, reading, ROOM);
            }
            for reading in [below(first), above(last), -LARGEST, LARGEST] {
                list.slice(&rule, axis, reading, ROOM);
            }
        }
    }
}

/// 15, after 10 and 11; then outputs with room to spare.
fn rooms(list: &mut List, seed: &mut Seed) {
    let axes = good();
    list.table(&tables::of_kind(&axes, Kind::Mild, seed));
    for rule in rules(3) {
        for axis in 0..removable(&rule, 3) {
            let inside = axes[axis][0] + 0.25;
            let wanted = 18 / axes[axis].len();
            for room in [0, 1, wanted - 1, wanted, wanted + 1, 4160] {
                list.slice(&rule, axis, inside, room);
            }
            list.slice(&rule, axis, f64::NAN, wanted - 1);
            list.slice(&rule, axis, LARGEST, 0);
        }
    }
}

/// 3 goes before 16, 16 before 9, 9 before 10, 11 and 15.
fn bad_directions(list: &mut List, seed: &mut Seed) {
    list.table(&tables::of_kind(&good(), Kind::Mild, seed));
    for count in [0, 1, 2, 4, 8] {
        let rule = Rule::Step([0, 1, 2, 0, 0, 0, 0, 0][..count].to_vec());
        list.slice(&rule, 0, 0.5, ROOM);
        list.slice(&rule, 3, f64::NAN, 0);
    }
    for d in 0..3 {
        let mut directions = vec![0, 1, 0];
        directions[d] = [2, 255, 128][d];
        let rule = Rule::Step(directions);
        for axis in 0..4 {
            list.slice(&rule, axis, 0.5, ROOM);
        }
        list.slice(&rule, 0, f64::INFINITY, ROOM);
        list.slice(&rule, 1, LARGEST, 0);
    }
}

/// Tables with the numbers 1 to 7, by way of their shapes, lengths and contents.
fn bad_tables(seed: &mut Seed) -> Vec<Table> {
    let good = tables::of_kind(&good(), Kind::Mild, seed);
    let mut bad = Vec::new();
    let mut change = |edit: &dyn Fn(&mut Table)| {
        let mut table = good.clone();
        edit(&mut table);
        bad.push(table);
    };
    for axes in [0, 5, 255] {
        change(&|table| table.axes = axes);
    }
    for (d, count) in [(0, 1), (1, 65), (2, 0), (0, 65535)] {
        change(&|table| table.counts[d] = count);
    }
    change(&|table| table.counts = [64, 64, 2, 0]);
    change(&|table| table.nodes.truncate(7));
    change(&|table| table.values.truncate(17));
    change(&|table| table.values.push(1.0));
    for (place, node) in [
        (0, f64::NAN),
        (4, f64::INFINITY),
        (7, f64::NAN),
        (2, 1.0),
        (4, -1.0),
        (6, 3.0),
    ] {
        change(&|table| table.nodes[place] = node);
    }
    change(&|table| table.nodes[3..5].copy_from_slice(&[-LARGEST, LARGEST]));
    for place in [0, 9, 17] {
        change(&|table| table.values[place] = f64::NAN);
    }
    bad
}

fn tables_at_fault(list: &mut List, seed: &mut Seed) {
    for table in bad_tables(seed) {
        list.table(&table);
        for rule in rules(3) {
            list.slice(&rule, 0, 0.5, ROOM);
            list.slice(&rule, 1, f64::NAN, 0);
        }
        list.slice(&Rule::Step(vec![2; 3]), 2, 4.25, ROOM);
        list.slice(&Rule::Step(vec![2; 2]), 9, 4.25, ROOM);
    }
}

/// 8 looks at every axis; it goes after 7 and 16, and before 10, 11 and 15.
fn not_uniform(list: &mut List, seed: &mut Seed) {
    let bent = vec![0.0, 1.0, 2.0 + two_to(-41)];
    let inside = vec![0.0, 1.0, 2.0 + two_to(-42)];
    let unit = vec![0.0, 1.0];
    for axes in [
        vec![bent.clone(), unit.clone()],
        vec![unit.clone(), bent.clone()],
        vec![unit.clone(), inside.clone(), bent.clone()],
        vec![inside.clone(), unit.clone(), inside.clone()],
        vec![unit.clone(), unit.clone(), bent.clone(), bent.clone()],
        vec![inside.clone(), unit.clone(), unit, inside],
    ] {
        let mut table = tables::of_kind(&axes, Kind::Mild, seed);
        let last = axes[0][axes[0].len() - 1];
        list.table(&table);
        for reading in [0.25, last, f64::NAN, LARGEST] {
            list.slice(&Rule::LinearUniform, 0, reading, 20);
        }
        list.slice(&Rule::LinearUniform, 0, 0.25, 1);
        list.slice(&Rule::LinearUniform, 1, 0.25, 20);
        list.slice(&Rule::Linear, 0, last, 20);
        table.values[1] = f64::INFINITY;
        list.table(&table);
        list.slice(&Rule::LinearUniform, 0, 0.25, 20);
    }
}

/// 12 at the first place that is not finite, and only after 15.
fn not_finite_places(list: &mut List, seed: &mut Seed) {
    let axes = vec![vec![0.0, 1.0, 2.0 + two_to(-42)], vec![0.0, 1.0, 2.0, 3.0]];
    for places in [&[0][..], &[1], &[3], &[1, 2], &[2, 3], &[0, 1, 2, 3], &[]] {
        let mut table = tables::of_kind(&axes, Kind::Mild, seed);
        for &place in places {
            table.values[4 + place] = -LARGEST;
            table.values[8 + place] = LARGEST;
        }
        list.table(&table);
        for room in [0, 3, 4, 6] {
            list.slice(&Rule::LinearUniform, 0, axes[0][2], room);
        }
        list.slice(&Rule::Linear, 0, axes[0][2], 5);
        list.slice(&Rule::Linear, 0, 1.75, 5);
    }
}

pub fn add(list: &mut List, seed: &mut Seed) {
    axes(list, seed);
    readings(list, seed);
    rooms(list, seed);
    bad_directions(list, seed);
    tables_at_fault(list, seed);
    not_uniform(list, seed);
    not_finite_places(list, seed);
}
