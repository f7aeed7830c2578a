//! Tables as images whose areas lie elsewhere than the writer puts them, and records.

use super::numbers::Seed;
use crate::header::write_numbers;
use crate::image::header::{HEADER, LONGEST};
use crate::image::write::placed;
use crate::table::Table;

/// The bytes of each area: the axes, then the values.
fn sizes(table: &Table) -> Vec<usize> {
    let axes = table.grid().into_iter().map(|nodes| 8 * nodes.len());
    axes.chain([8 * table.values.len()]).collect()
}

/// The areas one after another in a lent order, with a gap of so many bytes before each
/// and after the last.
pub fn in_order(table: &Table, order: &[usize], gap: usize) -> Vec<u8> {
    let sizes = sizes(table);
    let mut places = [0; 5];
    let mut at = HEADER + gap;
    for &area in order {
        places[area] = at as u32;
        at += sizes[area] + gap;
    }
    let axes = table.axes as usize;
    let mut offsets = [0; 4];
    offsets[..axes].copy_from_slice(&places[..axes]);
    placed(table, offsets, places[axes], at as u32)
}

/// In a drawn order, with drawn gaps where there is room for them.
pub fn drawn(table: &Table, seed: &mut Seed) -> Vec<u8> {
    let mut order: Vec<usize> = (0..=table.axes as usize).collect();
    for i in (1..order.len()).rev() {
        order.swap(i, seed.under(i + 1));
    }
    let taken: usize = sizes(table).iter().sum();
    let room = (LONGEST - HEADER - taken) / (8 * (order.len() + 1));
    in_order(table, &order, 8 * seed.under(room.min(3) + 1))
}

/// All axes with the nodes of the first, which lie in the image once.
pub fn one_area_for_all_axes(table: &Table) -> Vec<u8> {
    let axes = table.axes as usize;
    let nodes = table.grid()[0];
    let at = HEADER as u32;
    let values = at + 8 * nodes.len() as u32;
    let mut offsets = [0; 4];
    offsets[..axes].fill(at);
    let mut counts = [0; 4];
    counts[..axes].fill(nodes.len() as u16);
    let shared = Table {
        axes: table.axes,
        counts,
        nodes: nodes.repeat(axes),
        values: table.values.clone(),
    };
    let length = values + 8 * shared.values.len() as u32;
    placed(&shared, offsets, values, length)
}

/// A table of one axis whose values are its nodes, in one area.
pub fn values_on_nodes(nodes: &[f64]) -> Vec<u8> {
    let table = Table {
        axes: 1,
        counts: [nodes.len() as u16, 0, 0, 0],
        nodes: nodes.to_vec(),
        values: nodes.to_vec(),
    };
    let at = HEADER as u32;
    placed(&table, [at, 0, 0, 0], at, at + 8 * nodes.len() as u32)
}

pub fn put_record(kind: u8, readings: &[f64], run: &mut Vec<u8>) {
    run.push(kind);
    write_numbers(readings, run);
}
