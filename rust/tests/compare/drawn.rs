//! The calls on a table that is drawn.

use ninterp::calls::Call;
use ninterp::make::awkward::{readings, tables};
use ninterp::make::numbers::{two_to, Seed};
use ninterp::rules::Rule;
use ninterp::table::Table;
use ninterp::table_calls::Slice;

/// A table, lookups and slices of it, and the primitives on each of its axes.
pub fn calls(seed: &mut Seed) -> Vec<Call> {
    let (table, _) = tables::with_image(seed);
    let mut calls = vec![Call::Table(table.clone())];
    for _ in 0..8 {
        let readings = readings::point(&table.grid(), seed);
        for rule in rules(&table, seed) {
            calls.push(Call::Lookup { rule, readings: readings.clone() });
        }
    }
    for axis in 0..table.axes as usize {
        slices(&table, axis, seed, &mut calls);
        primitives(&table, axis, seed, &mut calls);
    }
    calls
}

fn rules(table: &Table, seed: &mut Seed) -> [Rule; 4] {
    let directions = (0..table.axes).map(|_| seed.under(2) as u8).collect();
    [Rule::Linear, Rule::LinearUniform, Rule::Nearest, Rule::Step(directions)]
}

/// By each rule at a reading of its own; one in eight has an output that is too short.
fn slices(table: &Table, axis: usize, seed: &mut Seed, calls: &mut Vec<Call>) {
    let size = (table.values.len() / table.shape()[axis]) as u32;
    for rule in rules(table, seed) {
        let room = match seed.under(8) {
            0 => size - 1,
            more => size + more as u32 - 1,
        };
        let reading = readings::point(&table.grid(), seed)[axis];
        calls.push(Call::Slice(Slice { rule, axis: axis as u32, reading, room }));
    }
}

fn primitives(table: &Table, axis: usize, seed: &mut Seed, calls: &mut Vec<Call>) {
    let grid = table.grid();
    let nodes = grid[axis];
    let (first, gap) = (nodes[0], nodes[1] - nodes[0]);
    calls.push(Call::Axis(nodes.to_vec()));
    for _ in 0..4 {
        let reading = readings::point(&grid, seed)[axis];
        calls.push(Call::LocateLowerIndex { reading });
        calls.push(Call::ExactIndex { lower: seed.under(nodes.len()) as u64, reading });
        calls.push(Call::LocateAxis { reading });
        calls.push(Call::LocateStepIndex { direction: seed.under(2) as u8, reading });
        calls.push(Call::LocateLowerIndexUniform { grid0: first, step: gap, n: nodes.len() as u8, reading });
    }
    let tolerance = gap * two_to(-30 - seed.under(24) as i32);
    calls.push(Call::ValidateUniformGrid { tolerance });
    calls.push(Call::ValidateUniformGridEpsilon { tolerance: None });
    calls.push(Call::ValidateUniformGridEpsilon { tolerance: Some(tolerance) });
}
