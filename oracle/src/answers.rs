//! The answer to each call: a refusal of `refusals`, or what the unchanged Rust gives. One
//! line, but for a slice, whose lines are in `slices`.

use crate::calls::Call;
use crate::lookups;
use crate::refusals::{self, Refusal};
use crate::slices;
use crate::table::Table;
use ninterp::error::ValidateError;
use ninterp::strategy::step::StepDirection;
use ninterp::strategy::utils::{
    exact_index, locate_axis, locate_lower_index, locate_lower_index_uniform, locate_step_index,
    validate_uniform_grid, validate_uniform_grid_epsilon, AxisLocation,
};
use ninterp::views::ArrayView1;

type Answer = Result<String, Refusal>;

/// Before the first axis record the axis has no nodes; before the first table record
/// the table has no axes.
pub fn answer_list(calls: &[Call]) -> String {
    let mut lines = String::new();
    let mut nodes: &[f64] = &[];
    let mut table = &Table::default();
    for call in calls {
        match call {
            Call::Axis(lent) => nodes = lent,
            Call::Table(lent) => table = lent,
            Call::Slice(slice) => lines += &slices::lines(table, slice),
            _ => lines += &line(answer(call, nodes, table)),
        }
    }
    lines
}

fn line(answer: Answer) -> String {
    match answer {
        Ok(found) if found.is_empty() => "ok\n".into(),
        Ok(found) => format!("ok {found}\n"),
        Err(no) => format!("no {} {} {}\n", no.number, no.axis, no.place),
    }
}

fn answer(call: &Call, nodes: &[f64], table: &Table) -> Answer {
    match *call {
        Call::Axis(_) | Call::Table(_) | Call::Slice(_) => Ok(String::new()),
        Call::LocateLowerIndex { reading } => lower_index(nodes, reading),
        Call::ExactIndex { lower, reading } => exact(nodes, lower, reading),
        Call::LocateAxis { reading } => axis_location(nodes, reading),
        Call::LocateStepIndex { direction, reading } => step_index(direction, nodes, reading),
        #[rustfmt::skip]
        Call::LocateLowerIndexUniform { grid0, step, n, reading } => {
            uniform_index(grid0, step, n as usize, reading)
        },
        Call::ValidateUniformGrid { tolerance } => uniform(nodes, tolerance),
        Call::ValidateUniformGridEpsilon { tolerance } => uniform_epsilon(nodes, tolerance),
        #[rustfmt::skip]
        Call::Lookup { ref rule, ref readings } => {
            value(lookups::looked_up(table, rule, readings))
        },
    }
}

fn value(found: Result<f64, Refusal>) -> Answer {
    found.map(|value| format!("{:016x}", value.to_bits()))
}

fn lower_index(nodes: &[f64], reading: f64) -> Answer {
    refusals::nodes(nodes)?;
    refusals::reading(reading)?;
    Ok(locate_lower_index(ArrayView1::from(nodes), &reading).to_string())
}

fn exact(nodes: &[f64], lower: u64, reading: f64) -> Answer {
    refusals::nodes(nodes)?;
    refusals::lower_index(lower, nodes.len())?;
    refusals::reading(reading)?;
    Ok(
        match exact_index(ArrayView1::from(nodes), lower as usize, &reading) {
            Some(index) => index.to_string(),
            None => "none".into(),
        },
    )
}

fn axis_location(nodes: &[f64], reading: f64) -> Answer {
    refusals::nodes(nodes)?;
    refusals::reading(reading)?;
    match locate_axis(ArrayView1::from(nodes), &reading) {
        AxisLocation::Exact(index) => Ok(format!("exact {index}")),
        AxisLocation::Between { lower, frac } => {
            refusals::result(frac, 0)?;
            Ok(format!("between {lower} {:016x}", frac.to_bits()))
        }
    }
}

fn step_index(direction: u8, nodes: &[f64], reading: f64) -> Answer {
    refusals::nodes(nodes)?;
    refusals::direction(direction)?;
    refusals::reading(reading)?;
    let dir = if direction == 0 {
        StepDirection::Lower
    } else {
        StepDirection::Upper
    };
    Ok(locate_step_index(dir, ArrayView1::from(nodes), &reading).to_string())
}

fn uniform_index(grid0: f64, step: f64, n: usize, reading: f64) -> Answer {
    refusals::count(n)?;
    refusals::first_node(grid0)?;
    refusals::step(step)?;
    refusals::reading(reading)?;
    Ok(locate_lower_index_uniform(grid0, step, n, reading).to_string())
}

fn uniform(nodes: &[f64], tolerance: f64) -> Answer {
    refusals::nodes(nodes)?;
    refusals::tolerance(tolerance)?;
    checked(validate_uniform_grid(ArrayView1::from(nodes), 0, tolerance))
}

fn uniform_epsilon(nodes: &[f64], tolerance: Option<f64>) -> Answer {
    refusals::nodes(nodes)?;
    if let Some(tolerance) = tolerance {
        refusals::tolerance(tolerance)?;
    }
    checked(validate_uniform_grid_epsilon(
        ArrayView1::from(nodes),
        0,
        tolerance,
    ))
}

fn checked(result: Result<(), ValidateError>) -> Answer {
    if let Err(ValidateError::NonUniform { index, .. }) = result {
        refusals::not_uniform(index)?;
    }
    Ok(String::new())
}
