//! The crate's answers to a list of calls, in the lines that `oracle/README.md` describes.

use ngamsothul::axis::{self, AxisLocation};
use ngamsothul::{Direction, Refusal, Shape, Table};
use ninterp::calls::Call;
use ninterp::rules::Rule;
use ninterp::slices::mark;
use ninterp::table::Table as Lent;
use ninterp::table_calls::Slice;

/// A [`Direction`] is lower or upper: a call with another byte cannot be written in Rust.
pub fn can_be_asked(call: &Call) -> bool {
    match call {
        Call::LocateStepIndex { direction, .. } => *direction <= 1,
        Call::Lookup { rule, .. } | Call::Slice(Slice { rule, .. }) => rule.directions().iter().all(|&byte| byte <= 1),
        _ => true,
    }
}

pub fn of(calls: &[Call]) -> String {
    let mut lines = String::new();
    let (mut grid, mut table): (&[f64], _) = (&[], &Lent::default());
    for call in calls {
        match call {
            Call::Axis(nodes) => grid = nodes,
            Call::Table(lent) => table = lent,
            Call::Lookup { rule, readings } => lines += &line(looked_up(table, rule, readings)),
            Call::Slice(slice) => lines += &sliced(table, slice),
            _ => lines += &line(primitive(call, grid)),
        }
    }
    lines
}

fn line(answer: Result<String, Refusal>) -> String {
    match answer {
        Ok(found) => format!("ok {found}").trim_end().to_string() + "\n",
        Err(no) => refused(no) + "\n",
    }
}

/// Every refusal that a call gives has its sentence.
fn refused(no: Refusal) -> String {
    assert!(!no.to_string().starts_with("refusal "), "no sentence: {no}");
    format!("no {} {} {}", no.number, no.axis, no.place)
}

fn hex(value: f64) -> String {
    format!("{:016x}", value.to_bits())
}

fn direction(byte: u8) -> Direction {
    [Direction::Lower, Direction::Upper][byte as usize]
}

fn primitive(call: &Call, grid: &[f64]) -> Result<String, Refusal> {
    let index = |index: usize| index.to_string();
    match *call {
        Call::LocateLowerIndex { reading } => axis::locate_lower_index(grid, reading).map(index),
        Call::ExactIndex { lower, reading } => {
            axis::exact_index(grid, lower as usize, reading).map(|found| found.map_or("none".into(), index))
        }
        Call::LocateAxis { reading } => axis::locate_axis(grid, reading).map(|location| match location {
            AxisLocation::Exact(index) => format!("exact {index}"),
            AxisLocation::Between { lower, frac } => format!("between {lower} {}", hex(frac)),
        }),
        Call::LocateStepIndex { direction: byte, reading } => axis::locate_step_index(direction(byte), grid, reading).map(index),
        Call::LocateLowerIndexUniform { grid0, step, n, reading } => {
            axis::locate_lower_index_uniform(grid0, step, n as usize, reading).map(index)
        }
        Call::ValidateUniformGrid { tolerance } => axis::validate_uniform_grid(grid, tolerance).map(|()| String::new()),
        Call::ValidateUniformGridEpsilon { tolerance } => axis::validate_uniform_grid_epsilon(grid, tolerance).map(|()| String::new()),
        _ => unreachable!("no primitive"),
    }
}

/// As many counts as there are axes, be they more than the four that the list has.
pub fn counts(lent: &Lent) -> Vec<usize> {
    let listed = lent.counts.iter().map(|&count| count as usize);
    listed.chain(std::iter::repeat(2)).take(lent.axes as usize).collect()
}

fn looked_up(lent: &Lent, rule: &Rule, point: &[f64]) -> Result<String, Refusal> {
    let counts = counts(lent);
    let table = Table::new(&counts, &lent.nodes, &lent.values);
    let value = match rule {
        Rule::Linear => table.linear(point),
        Rule::LinearUniform => table.linear_uniform(point),
        Rule::Nearest => table.nearest(point),
        Rule::Step(bytes) => table.step(point, &directions(bytes)),
    };
    value.map(hex)
}

fn directions(bytes: &[u8]) -> Vec<Direction> {
    bytes.iter().map(|&byte| direction(byte)).collect()
}

fn slice_by(table: Table, slice: &Slice, out: &mut [f64]) -> Result<Shape, Refusal> {
    let (axis, reading) = (slice.axis as usize, slice.reading);
    match &slice.rule {
        Rule::Linear => table.slice_linear(axis, reading, out),
        Rule::LinearUniform => table.slice_linear_uniform(axis, reading, out),
        Rule::Nearest => table.slice_nearest(axis, reading, out),
        Rule::Step(bytes) => table.slice_step(&directions(bytes), axis, reading, out),
    }
}

/// Of a shape its axes and four counts; zeros where there is none.
fn shape_words(shape: Option<Shape>) -> String {
    let mut counts = shape.map_or(Vec::new(), |shape| shape.counts().to_vec());
    let axes = counts.len();
    counts.resize(4, 0);
    format!("shape {axes} {} {} {} {}", counts[0], counts[1], counts[2], counts[3])
}

fn sliced(lent: &Lent, slice: &Slice) -> String {
    let counts = counts(lent);
    let mut out: Vec<f64> = (0..slice.room as usize).map(mark).collect();
    let answer = slice_by(Table::new(&counts, &lent.nodes, &lent.values), slice, &mut out);
    let words = shape_words(answer.ok());
    let mut lines = match answer {
        Ok(_) => format!("ok {words}\n"),
        Err(no) => format!("{} {words}\n", refused(no)),
    };
    let marked = |&(place, value): &(usize, &f64)| value.to_bits() == mark(place).to_bits();
    let kept = out.iter().enumerate().rev().take_while(marked).count();
    for &value in &out[..out.len() - kept] {
        lines += &(hex(value) + "\n");
    }
    lines + &format!("kept {kept}\n")
}
