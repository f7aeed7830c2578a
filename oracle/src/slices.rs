//! The slices of a table: a refusal of `table_refusals`, or, place by place, what the
//! unchanged Rust gives along the removed axis alone.

use crate::lookups::{ask, confirmed, data};
use crate::refusals::{self, Refusal};
use crate::rules::Rule;
use crate::table::Table;
use crate::table_calls::Slice;
use crate::table_refusals;

/// What stands at a place of the output before a slice: 2^52 and the place.
pub fn mark(place: usize) -> f64 {
    f64::from_bits(0x4330_0000_0000_0000 | place as u64)
}

/// The rule of one axis alone.
fn rule_of(rule: &Rule, axis: usize) -> Rule {
    match rule {
        Rule::Step(directions) => Rule::Step(vec![directions[axis]]),
        other => other.clone(),
    }
}

/// The table of one axis alone, its values those at a place of the slice.
fn column(table: &Table, axis: usize, place: usize) -> Table {
    let shape = table.shape();
    let inner: usize = shape[axis + 1..].iter().product();
    let (run, within) = (place / inner, place % inner);
    let value = |node: usize| table.values[(run * shape[axis] + node) * inner + within];
    Table {
        axes: 1,
        counts: [table.counts[axis], 0, 0, 0],
        nodes: table.grid()[axis].to_vec(),
        values: (0..shape[axis]).map(value).collect(),
    }
}

/// The nodes of the other axes at a place of the slice, with the reading among them.
fn whole_point(table: &Table, axis: usize, place: usize, reading: f64) -> Vec<f64> {
    let mut rest = place;
    let mut point = Vec::new();
    for (d, nodes) in table.grid().into_iter().enumerate().rev() {
        if d == axis {
            point.insert(0, reading);
        } else {
            point.insert(0, nodes[rest % nodes.len()]);
            rest /= nodes.len();
        }
    }
    point
}

/// Of a table and a slice that were not refused. But for LinearUniform, which has no
/// exact shortcut, a lookup in the whole table at the nodes of the other axes must agree.
pub fn values(table: &Table, slice: &Slice) -> Vec<f64> {
    let axis = slice.axis as usize;
    let rule = rule_of(&slice.rule, axis);
    let whole = data(table);
    let at = |place: usize| {
        let alone = data(&column(table, axis, place));
        let value = ask(&rule, &alone, &[slice.reading]);
        if !matches!(rule, Rule::LinearUniform) {
            let point = whole_point(table, axis, place, slice.reading);
            let agreed = ask(&slice.rule, &whole, &point);
            assert_eq!(value.to_bits(), agreed.to_bits());
        }
        value
    };
    (0..table.values.len() / table.shape()[axis])
        .map(at)
        .collect()
}

fn sliced(table: &Table, slice: &Slice) -> Result<Vec<f64>, Refusal> {
    table_refusals::slice(table, slice).map_err(|no| confirmed(table, no))?;
    let values = values(table, slice);
    for (place, &value) in values.iter().enumerate() {
        refusals::result(value, place)?;
    }
    Ok(values)
}

/// How many axes are left, and their counts.
fn shape_without(table: &Table, axis: usize) -> [usize; 5] {
    let mut left = table.shape().to_vec();
    left.remove(axis);
    let mut shape = [left.len(), 0, 0, 0, 0];
    shape[1..=left.len()].copy_from_slice(&left);
    shape
}

/// A line for the answer and the shape; a line for each place of the output up to the last
/// that lost its mark; a line for how many places after it still hold theirs.
pub fn lines(table: &Table, slice: &Slice) -> String {
    let mut out: Vec<f64> = (0..slice.room as usize).map(mark).collect();
    let mut shape = [0; 5];
    let mut lines = match sliced(table, slice) {
        Ok(values) => {
            out[..values.len()].copy_from_slice(&values);
            shape = shape_without(table, slice.axis as usize);
            "ok shape".into()
        }
        Err(no) => format!("no {} {} {} shape", no.number, no.axis, no.place),
    };
    for count in shape {
        lines += &format!(" {count}");
    }
    lines += "\n";
    let marked = |&(place, value): &(usize, &f64)| value.to_bits() == mark(place).to_bits();
    let kept = out.iter().enumerate().rev().take_while(marked).count();
    for value in &out[..out.len() - kept] {
        lines += &format!("{:016x}\n", value.to_bits());
    }
    lines + &format!("kept {kept}\n")
}
