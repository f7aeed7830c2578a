//! Tries the two linears, the slices, the whole run of document 01 and the image of request
//! C-12 on cases worked by hand, and whether a lookup in a slice is a lookup in the whole
//! table.

use crate::lookups::{ask, data, not_uniform};
use crate::program;
use crate::rules::Rule;
use crate::slices;
use crate::table::Table;
use crate::table_calls::Slice;

fn same(what: &str, found: f64, wanted: f64) -> Result<(), String> {
    if found.to_bits() == wanted.to_bits() {
        Ok(())
    } else {
        Err(format!("{what}: {found:?}, not {wanted:?}"))
    }
}

/// P9 of document 01.
fn square() -> Table {
    Table {
        axes: 2,
        counts: [2, 2, 0, 0],
        nodes: vec![0.0, 1.0, 0.0, 1.0],
        values: vec![0.0, 1.0, 2.0, 3.0],
    }
}

/// 2 x 3 x 4; the value at (i, j, k) is 100 i + 10 j + k.
fn block(last: [f64; 4]) -> Table {
    let mut values = Vec::new();
    for i in [0.0, 100.0] {
        for j in [0.0, 10.0, 20.0] {
            values.extend([0.0, 1.0, 2.0, 3.0].map(|k| i + j + k));
        }
    }
    Table {
        axes: 3,
        counts: [2, 3, 4, 0],
        nodes: [&[0.0, 1.0, 0.0, 1.0, 2.0], last.as_slice()].concat(),
        values,
    }
}

const APART: [f64; 4] = [0.0, 1.0, 2.0, 4.0];
const UNIFORM: [f64; 4] = [0.0, 1.0, 2.0, 3.0];

fn linear() -> Result<(), String> {
    let square = data(&square());
    same("P9", ask(&Rule::Linear, &square, &[0.5, 0.25]), 1.25)?;
    let block = data(&block(APART));
    let cases = [
        ([0.5, 1.5, 3.0], 67.5),
        ([0.5, 2.0, 3.0], 72.5),
        ([1.0, 1.5, 2.0], 117.0),
        ([0.25, 1.0, 0.0], 35.0),
        ([1.0, 2.0, 4.0], 123.0),
        ([0.0, 0.0, 0.5], 0.5),
    ];
    for (readings, wanted) in cases {
        same("Linear", ask(&Rule::Linear, &block, &readings), wanted)?;
    }
    Ok(())
}

fn linear_uniform() -> Result<(), String> {
    let rule = Rule::LinearUniform;
    let square = data(&square());
    same("P9", ask(&rule, &square, &[0.5, 0.25]), 1.25)?;
    same("a corner", ask(&rule, &square, &[1.0, 1.0]), 3.0)?;
    let steps = data(&Table {
        axes: 2,
        counts: [3, 2, 0, 0],
        nodes: vec![0.0, 2.0, 4.0, 1.0, 2.0],
        values: vec![0.0, 1.0, 2.0, 3.0, 4.0, 5.0],
    });
    same("LinearUniform", ask(&rule, &steps, &[3.0, 1.25]), 3.25)?;
    match not_uniform(&data(&block(APART))) {
        Some((2, 2)) => Ok(()),
        other => Err(format!("LinearUniform on 0, 1, 2, 4: {other:?}")),
    }
}

fn slice(rule: &Rule, axis: u32, reading: f64) -> Slice {
    Slice {
        rule: rule.clone(),
        axis,
        reading,
        room: 12,
    }
}

fn sliced(
    table: &Table,
    rule: &Rule,
    axis: u32,
    reading: f64,
    wanted: &[f64],
) -> Result<(), String> {
    let found = slices::values(table, &slice(rule, axis, reading));
    if found == wanted {
        Ok(())
    } else {
        Err(format!("slice at {reading} of axis {axis}: {found:?}"))
    }
}

fn slices_by_hand() -> Result<(), String> {
    for rule in [Rule::Linear, Rule::LinearUniform] {
        sliced(&square(), &rule, 0, 0.5, &[1.0, 2.0])?;
    }
    let block = block(APART);
    let halves = [50.0, 51.0, 52.0, 53.0, 60.0, 61.0, 62.0, 63.0];
    let halves = [halves.as_slice(), &[70.0, 71.0, 72.0, 73.0]].concat();
    sliced(&block, &Rule::Linear, 0, 0.5, &halves)?;
    let upper = [2.0, 12.0, 22.0, 102.0, 112.0, 122.0];
    sliced(&block, &Rule::Nearest, 2, 2.5, &upper)?;
    sliced(&block, &Rule::Step(vec![1, 1, 0]), 2, 3.5, &upper)?;
    let middle = [10.0, 11.0, 12.0, 13.0, 110.0, 111.0, 112.0, 113.0];
    sliced(&block, &Rule::Step(vec![0, 1, 0]), 1, 0.5, &middle)?;
    sliced(&block, &Rule::Nearest, 1, 0.5, &middle)
}

/// Document 01: a slice of a table answers as the whole table does.
fn law(table: &Table, rule: &Rule, readings: &[f64]) -> Result<(), String> {
    let whole = ask(rule, &data(table), readings);
    let left = Table {
        axes: table.axes - 1,
        counts: [table.counts[1], table.counts[2], table.counts[3], 0],
        nodes: table.nodes[table.counts[0] as usize..].to_vec(),
        values: slices::values(table, &slice(rule, 0, readings[0])),
    };
    let rule = match rule {
        Rule::Step(directions) => Rule::Step(directions[1..].to_vec()),
        other => other.clone(),
    };
    same(
        "the slice's law",
        ask(&rule, &data(&left), &readings[1..]),
        whole,
    )
}

fn laws() -> Result<(), String> {
    let step = Rule::Step(vec![1, 0, 1]);
    let table = block(UNIFORM);
    for rule in [Rule::Nearest, step, Rule::Linear, Rule::LinearUniform] {
        for first in [0.0, 0.1, 0.7, 1.0] {
            for second in [0.0, 0.3, 1.0, 1.9] {
                for third in [0.0, 0.2, 2.0, 2.9, 3.0] {
                    law(&table, &rule, &[first, second, third])?;
                }
            }
        }
    }
    Ok(())
}

/// That the stand-in for axes that are taken out keeps the order of the others.
fn every_corner() -> Result<(), String> {
    let table = block(UNIFORM);
    let block = data(&table);
    for (place, &value) in table.values.iter().enumerate() {
        let readings = [place / 12, place / 4 % 3, place % 4].map(|i| i as f64);
        for rule in [Rule::Nearest, Rule::Linear, Rule::LinearUniform] {
            same("a node", ask(&rule, &block, &readings), value)?;
        }
    }
    Ok(())
}

/// Document 01's input, field by field, with its values at a byte.
fn paper_input(values: u8) -> Vec<u8> {
    let mut input = vec![1, 1, 0, 0, 72, 0, 0, 0];
    input.extend([2, 0, 0, 0, 0, 0, 0, 0]);
    input.extend([40, 0, 0, 0, 0, 0, 0, 0, 0, 0, 0, 0, 0, 0, 0, 0]);
    input.extend([values, 0, 0, 0, 0, 0, 0, 0]);
    for number in [0.0f64, 2.0, 10.0, 20.0] {
        input.extend(number.to_le_bytes());
    }
    for (kind, reading) in [(0, 0.5f64), (2, 1.0), (0, 3.0)] {
        input.push(kind);
        input.extend(reading.to_le_bytes());
    }
    input
}

/// Its output; and request C-12's image, whose values begin on the last node.
fn whole_run() -> Result<(), String> {
    let wanted = [
        (56, "ok 4029000000000000\nok 4034000000000000\nno 11 0 1\n"),
        (48, "no 18 0 1\n"),
    ];
    for (values, wanted) in wanted {
        let lines = program::lines(&paper_input(values));
        if lines != wanted {
            return Err(format!("the whole run, values at {values}: {lines:?}"));
        }
    }
    Ok(())
}

pub fn run() -> Result<(), String> {
    whole_run()?;
    linear()?;
    linear_uniform()?;
    slices_by_hand()?;
    laws()?;
    every_corner()
}
