//! The refusals of document 01, section "Numbers the technician sees", for the lookups
//! and the slices of a table, in its order: 1, 2, 3; 16 for a slice; 4, 5, 6 axis by
//! axis; 7; 8 for LinearUniform; 9 for Step; 10; 11; 15 for a slice. Written from that
//! document alone; nothing here calls the Rust.

use crate::refusals::{self, Refusal};
use crate::rules::Rule;
use crate::table::Table;
use crate::table_calls::Slice;

pub fn lookup(table: &Table, rule: &Rule, readings: &[f64]) -> Result<(), Refusal> {
    axes(table.axes)?;
    counts(&table.shape())?;
    lengths(table, Some(readings), rule)?;
    contents(table, rule)?;
    readings_of(table, readings)
}

/// 10, then 11. Of a table that passed 1 to 7, and one reading for each axis.
pub fn readings_of(table: &Table, readings: &[f64]) -> Result<(), Refusal> {
    on_each_axis(readings, refusals::reading)?;
    for (axis, nodes) in table.grid().into_iter().enumerate() {
        inside(nodes, axis, readings[axis])?;
    }
    Ok(())
}

/// 10 and 11 for its one reading alone.
pub fn slice(table: &Table, slice: &Slice) -> Result<(), Refusal> {
    let axis = slice.axis as usize;
    axes(table.axes)?;
    counts(&table.shape())?;
    lengths(table, None, &slice.rule)?;
    removable(table, axis, &slice.rule)?;
    contents(table, &slice.rule)?;
    refusals::reading(slice.reading).map_err(|no| no.on_axis(axis))?;
    inside(table.grid()[axis], axis, slice.reading)?;
    let wanted = table.values.len() / table.shape()[axis];
    room(slice.room as usize, wanted)
}

fn refuse(number: u8, axis: usize, place: usize) -> Result<(), Refusal> {
    Err(Refusal {
        number,
        axis: axis as u8,
        place,
    })
}

/// The check of a single axis, whose refusals then name the axis at fault.
fn on_each_axis<T: Copy>(
    lent: &[T],
    check: impl Fn(T) -> Result<(), Refusal>,
) -> Result<(), Refusal> {
    for (axis, &one) in lent.iter().enumerate() {
        check(one).map_err(|no| no.on_axis(axis))?;
    }
    Ok(())
}

pub fn axes(axes: u8) -> Result<(), Refusal> {
    if (1..=4).contains(&axes) {
        Ok(())
    } else {
        refuse(1, 0, 0)
    }
}

/// All the counts, then their product.
fn counts(shape: &[usize]) -> Result<(), Refusal> {
    on_each_axis(shape, refusals::count)?;
    product(shape)
}

pub fn product(shape: &[usize]) -> Result<(), Refusal> {
    if shape.iter().product::<usize>() <= 4096 {
        Ok(())
    } else {
        refuse(2, 0, 0)
    }
}

/// Readings are lent to a lookup alone, directions to Step alone.
fn lengths(table: &Table, readings: Option<&[f64]>, rule: &Rule) -> Result<(), Refusal> {
    let shape = table.shape();
    let directions = match rule {
        Rule::Step(directions) => directions.len(),
        _ => shape.len(),
    };
    let lent = [
        (table.nodes.len(), shape.iter().sum()),
        (table.values.len(), shape.iter().product()),
        (readings.map_or(shape.len(), <[f64]>::len), shape.len()),
        (directions, shape.len()),
    ];
    for (place, (length, wanted)) in lent.into_iter().enumerate() {
        if length != wanted {
            return refuse(3, 0, place);
        }
    }
    Ok(())
}

/// 16.
fn removable(table: &Table, axis: usize, rule: &Rule) -> Result<(), Refusal> {
    let last = if rule.is_linear() { 0 } else { table.axes - 1 };
    if table.axes > 1 && axis <= last as usize {
        Ok(())
    } else {
        refuse(16, 0, 0)
    }
}

/// 4, 5, 6; 7. Of a table that passed 1, 2, 3.
pub fn nodes_and_values(table: &Table) -> Result<(), Refusal> {
    on_each_axis(&table.grid(), refusals::nodes)?;
    values(&table.values)
}

/// 4, 5, 6; 7; 8; 9.
fn contents(table: &Table, rule: &Rule) -> Result<(), Refusal> {
    nodes_and_values(table)?;
    if let Rule::LinearUniform = rule {
        uniform_axes(table)?;
    }
    on_each_axis(rule.directions(), refusals::direction)
}

/// All of them at once; the place is looked for only where there is one.
fn values(values: &[f64]) -> Result<(), Refusal> {
    if values
        .iter()
        .fold(true, |good, value| good & value.is_finite())
    {
        return Ok(());
    }
    match values.iter().position(|value| !value.is_finite()) {
        Some(place) => refuse(7, 0, place),
        None => Ok(()),
    }
}

/// 8 for LinearUniform, of all axes.
pub fn uniform_axes(table: &Table) -> Result<(), Refusal> {
    on_each_axis(&table.grid(), uniform)
}

/// 8 at the default tolerance, of the first gap that differs from the first one by more.
pub fn uniform(nodes: &[f64]) -> Result<(), Refusal> {
    let gap = |pair: &[f64]| pair[1] - pair[0];
    let first = gap(nodes);
    let tolerance = first * (1.0 / (1u64 << 42) as f64);
    let off = |pair: &[f64]| (gap(pair) - first).abs() > tolerance;
    match nodes.windows(2).position(off) {
        Some(interval) => refusals::not_uniform(interval),
        None => Ok(()),
    }
}

/// Plus and minus zero are equal, so neither is outside an axis that ends at the other.
fn inside(nodes: &[f64], axis: usize, reading: f64) -> Result<(), Refusal> {
    if reading < nodes[0] {
        return refuse(11, axis, 0);
    }
    if reading > nodes[nodes.len() - 1] {
        return refuse(11, axis, 1);
    }
    Ok(())
}

fn room(room: usize, wanted: usize) -> Result<(), Refusal> {
    if room < wanted {
        refuse(15, 0, 1)
    } else {
        Ok(())
    }
}
