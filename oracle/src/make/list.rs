//! The list while it is being made.

use crate::calls::Call;
use crate::rules::Rule;
use crate::table::Table;
use crate::table_calls::Slice;

/// Which two lookups are asked where a maker leaves it open.
#[derive(Clone, Copy, Default)]
pub enum Asked {
    #[default]
    NearestAndStep,
    Linears,
}

#[derive(Default)]
pub struct List {
    bytes: Vec<u8>,
    pub asked: Asked,
}

impl List {
    pub fn bytes(self) -> Vec<u8> {
        self.bytes
    }

    pub fn axis(&mut self, nodes: &[f64]) {
        Call::Axis(nodes.to_vec()).write(&mut self.bytes);
    }

    pub fn lower(&mut self, reading: f64) {
        Call::LocateLowerIndex { reading }.write(&mut self.bytes);
    }

    pub fn exact(&mut self, lower: u64, reading: f64) {
        Call::ExactIndex { lower, reading }.write(&mut self.bytes);
    }

    pub fn locate(&mut self, reading: f64) {
        Call::LocateAxis { reading }.write(&mut self.bytes);
    }

    pub fn step(&mut self, direction: u8, reading: f64) {
        Call::LocateStepIndex { direction, reading }.write(&mut self.bytes);
    }

    pub fn uniform_index(&mut self, grid0: f64, step: f64, n: u8, reading: f64) {
        Call::LocateLowerIndexUniform {
            grid0,
            step,
            n,
            reading,
        }
        .write(&mut self.bytes);
    }

    pub fn uniform(&mut self, tolerance: f64) {
        Call::ValidateUniformGrid { tolerance }.write(&mut self.bytes);
    }

    pub fn uniform_epsilon(&mut self, tolerance: Option<f64>) {
        Call::ValidateUniformGridEpsilon { tolerance }.write(&mut self.bytes);
    }

    pub fn table(&mut self, table: &Table) {
        Call::Table(table.clone()).write(&mut self.bytes);
    }

    pub fn lookup(&mut self, rule: Rule, readings: &[f64]) {
        let readings = readings.to_vec();
        Call::Lookup { rule, readings }.write(&mut self.bytes);
    }

    pub fn nearest(&mut self, readings: &[f64]) {
        self.lookup(Rule::Nearest, readings);
    }

    pub fn stepped(&mut self, directions: &[u8], readings: &[f64]) {
        self.lookup(Rule::Step(directions.to_vec()), readings);
    }

    pub fn nearest_and_stepped(&mut self, directions: &[u8], readings: &[f64]) {
        self.nearest(readings);
        self.stepped(directions, readings);
    }

    pub fn linear(&mut self, readings: &[f64]) {
        self.lookup(Rule::Linear, readings);
    }

    pub fn linear_uniform(&mut self, readings: &[f64]) {
        self.lookup(Rule::LinearUniform, readings);
    }

    pub fn linears(&mut self, readings: &[f64]) {
        self.linear(readings);
        self.linear_uniform(readings);
    }

    /// Nearest or Linear.
    pub fn ask_first(&mut self, readings: &[f64]) {
        match self.asked {
            Asked::NearestAndStep => self.nearest(readings),
            Asked::Linears => self.linear(readings),
        }
    }

    /// Step, to which the directions go, or LinearUniform.
    pub fn ask_second(&mut self, directions: &[u8], readings: &[f64]) {
        match self.asked {
            Asked::NearestAndStep => self.stepped(directions, readings),
            Asked::Linears => self.linear_uniform(readings),
        }
    }

    pub fn ask_both(&mut self, directions: &[u8], readings: &[f64]) {
        self.ask_first(readings);
        self.ask_second(directions, readings);
    }

    /// Into an output with so much room.
    pub fn slice(&mut self, rule: &Rule, axis: usize, reading: f64, room: usize) {
        Call::Slice(Slice {
            rule: rule.clone(),
            axis: axis as u32,
            reading,
            room: room as u32,
        })
        .write(&mut self.bytes);
    }
}
