//! The counting call beside the unchanged Rust: a lookup counts as a record under the number that it is refused by, or on each axis in the
//! cell that the Rust's `locate_lower_index` names.

use crate::{drawn, lines};
use ngamsothul::{Table, Tally};
use ninterp::answers::answer_list;
use ninterp::calls::{read_list, Call};
use ninterp::make;
use ninterp::make::numbers::Seed;
use ninterp::rules::Rule;
use ninterp::table::Table as Lent;

/// What a tally must have: `cells[axis][cell]`, `numbers[number]`, of which 0 is the accepted.
struct Owed {
    cells: [[u32; 63]; 4],
    numbers: [u32; 21],
}

/// The kind byte of a rule. A record takes one direction for all axes.
fn kind(rule: &Rule, axes: usize) -> Option<u8> {
    match rule {
        Rule::Linear => Some(0),
        Rule::LinearUniform => Some(1),
        Rule::Nearest => Some(2),
        Rule::Step(bytes) => (0..2).find(|&byte| *bytes == vec![byte; axes]).map(|byte| 3 + byte),
    }
}

fn record(kind: u8, readings: &[f64]) -> Vec<u8> {
    let bytes = readings.iter().flat_map(|reading| reading.to_bits().to_le_bytes());
    std::iter::once(kind).chain(bytes).collect()
}

/// The number in the oracle's line of a lookup.
fn number(lent: &Lent, rule: &Rule, readings: &[f64]) -> usize {
    let lookup = Call::Lookup { rule: rule.clone(), readings: readings.to_vec() };
    let line = answer_list(&[Call::Table(lent.clone()), lookup]);
    match line.split_whitespace().collect::<Vec<_>>()[..] {
        ["ok", _] => 0,
        ["no", number, ..] => number.parse().expect("a number"),
        _ => panic!("no line of a lookup: {line}"),
    }
}

/// The Rust's `locate_lower_index`.
fn cell(nodes: &[f64], reading: f64) -> usize {
    let line = answer_list(&[Call::Axis(nodes.to_vec()), Call::LocateLowerIndex { reading }]);
    line.trim_start_matches("ok ").trim().parse().expect("an index")
}

impl Owed {
    fn count(&mut self, lent: &Lent, rule: &Rule, readings: &[f64]) {
        let number = number(lent, rule, readings);
        self.numbers[number] += 1;
        if number == 0 {
            for (axis, (nodes, &reading)) in lent.grid().iter().zip(readings).enumerate() {
                self.cells[axis][cell(nodes, reading)] += 1;
            }
        }
    }

    fn same(&self, tally: &Tally) {
        assert_eq!(tally.records(), self.numbers.iter().sum::<u32>());
        for number in 1..21 {
            assert_eq!(tally.number(number as u32), Some(self.numbers[number]), "number {number}");
        }
        for (axis, cells) in self.cells.iter().enumerate() {
            for (cell, &count) in cells.iter().enumerate() {
                assert_eq!(tally.cell(axis, cell), Some(count), "axis {axis}, cell {cell}");
            }
        }
    }
}

/// Counts every lookup of a list that a record can ask for, and compares the tally after each table.
fn counted(calls: &[Call], tally: &mut Tally, owed: &mut Owed) {
    let mut lent = &Lent::default();
    for call in calls {
        match call {
            Call::Table(next) => {
                owed.same(tally);
                lent = next;
            }
            Call::Lookup { rule, readings } => {
                let Some(kind) = kind(rule, lent.axes as usize) else { continue };
                let counts = lines::counts(lent);
                let table = Table::new(&counts, &lent.nodes, &lent.values);
                assert_eq!(tally.count_record(&table, &record(kind, readings)), Ok(()));
                owed.count(lent, rule, readings);
            }
            _ => (),
        }
    }
    owed.same(tally);
}

#[test]
fn counted_records() {
    let (mut tally, mut owed) = (Tally::new(), Owed { cells: [[0; 63]; 4], numbers: [0; 21] });
    counted(&read_list(&make::list()).expect("a list"), &mut tally, &mut owed);
    for number in 0..500 {
        counted(&drawn::calls(&mut Seed::of(number)), &mut tally, &mut owed);
    }
    let refused: u32 = owed.numbers[1..].iter().sum();
    println!("counted records: {} accepted and {refused} refused", owed.numbers[0]);
    for number in (0..13).filter(|&number| number != 9) {
        assert!(owed.numbers[number] > 20, "{number} was counted {} times", owed.numbers[number]);
    }
}
