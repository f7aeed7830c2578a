//! The lookups of a table: a refusal of `table_refusals`, or what the unchanged Rust gives.

use crate::refusals::{self, Refusal};
use crate::rules::Rule;
use crate::table::Table;
use crate::table_refusals;
use ninterp::arrays::{Array1, ArrayD, OwnedRepr};
use ninterp::error::{InterpolateError, ValidateError};
use ninterp::interpolator::data::InterpDataNDBase;
use ninterp::strategy::step::StepDirection;
use ninterp::strategy::traits::StrategyND;
use ninterp::strategy::{Directions, Linear, LinearUniform, Nearest, Step};

pub type Data = InterpDataNDBase<OwnedRepr<f64>>;

/// Only of a table that was not refused.
pub fn data(table: &Table) -> Data {
    let axes = table.grid().into_iter();
    Data {
        grid: axes.map(|nodes| Array1::from(nodes.to_vec())).collect(),
        values: ArrayD::from_shape_vec(table.shape().to_vec(), table.values.clone()),
    }
}

/// 0 is lower, every other byte is upper.
pub fn step(directions: &[u8]) -> Step {
    let named = |&byte: &u8| match byte {
        0 => StepDirection::Lower,
        _ => StepDirection::Upper,
    };
    Step {
        directions: Directions(directions.iter().map(named).collect()),
    }
}

/// What the Rust gives; a table that its own check does not pass stops the run.
fn asked(strategy: &impl StrategyND<OwnedRepr<f64>>, data: &Data, readings: &[f64]) -> f64 {
    strategy.validate(data).expect("accepted by the Rust");
    let Ok(value): Result<f64, InterpolateError> = strategy.interpolate(data, readings);
    value
}

pub fn ask(rule: &Rule, data: &Data, readings: &[f64]) -> f64 {
    match rule {
        Rule::Nearest => asked(&Nearest, data, readings),
        Rule::Step(directions) => asked(&step(directions), data, readings),
        Rule::Linear => asked(&Linear, data, readings),
        Rule::LinearUniform => asked(&LinearUniform, data, readings),
    }
}

/// The axis and the interval of the Rust's own uniform check.
pub fn not_uniform(data: &Data) -> Option<(usize, usize)> {
    match LinearUniform.validate(data) {
        Err(ValidateError::NonUniform { dim, index }) => Some((dim, index)),
        _ => None,
    }
}

/// Where a lookup or a slice is refused 8, the Rust must name the same axis and interval.
pub fn confirmed(table: &Table, no: Refusal) -> Refusal {
    if no.number == 8 {
        let named = (no.axis as usize, no.place);
        assert_eq!(not_uniform(&data(table)), Some(named));
    }
    no
}

pub fn looked_up(table: &Table, rule: &Rule, readings: &[f64]) -> Result<f64, Refusal> {
    table_refusals::lookup(table, rule, readings).map_err(|no| confirmed(table, no))?;
    computed(&data(table), rule, readings)
}

/// The same, with the table's data made beforehand.
pub fn looked_up_in(
    table: &Table,
    data: &Data,
    rule: &Rule,
    readings: &[f64],
) -> Result<f64, Refusal> {
    table_refusals::lookup(table, rule, readings).map_err(|no| confirmed(table, no))?;
    computed(data, rule, readings)
}

fn computed(data: &Data, rule: &Rule, readings: &[f64]) -> Result<f64, Refusal> {
    let value = ask(rule, data, readings);
    refusals::result(value, 0)?;
    Ok(value)
}
