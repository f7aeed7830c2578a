//! Tables whose number of axes, counts or lengths are refused, and counts that are not
//! looked at.

use super::axes::summed;
use super::list::List;
use super::numbers::Seed;
use super::values;
use crate::table::Table;

/// As many nodes and values as the counts say, up to what a record may have.
fn shaped(counts: &[u16], seed: &mut Seed) -> Table {
    let mut table = Table {
        axes: counts.len() as u8,
        ..Table::default()
    };
    let mut product = 1;
    for (d, &count) in counts.iter().enumerate() {
        table.counts[d] = count;
        product *= count as usize;
        let shown = count.min(65) as usize;
        table.nodes.extend(&summed(0.0, 1.0, 65)[..shown]);
    }
    if product <= 4160 {
        table.values = values::distinct(product, seed);
    }
    table
}

/// Two lookups without a fault of their own, as far as the table allows.
fn plain(list: &mut List, table: &Table) {
    list.table(table);
    let count = table.axes.min(8) as usize;
    list.ask_both(&[0, 1, 1, 0, 0, 1, 0, 1][..count], &[0.5; 8][..count]);
}

/// Lookups with faults that the table's own precedes.
fn faulty(list: &mut List) {
    list.ask_first(&[]);
    list.ask_second(&[2, 2], &[f64::NAN; 3]);
}

fn axes(list: &mut List, seed: &mut Seed) {
    for axes in [0, 5, 6, 128, 255] {
        let mut table = shaped(&[2, 2, 2, 2], seed);
        table.axes = axes;
        plain(list, &table);
        table.counts = [0, 65, 1, 65535];
        table.nodes.clear();
        plain(list, &table);
        faulty(list);
    }
}

fn counts(list: &mut List, seed: &mut Seed) {
    for axes in 1..=4 {
        for d in 0..axes {
            for bad in [0, 1, 65, 65535] {
                let mut counts = vec![2; axes];
                counts[d] = bad;
                plain(list, &shaped(&counts, seed));
            }
        }
    }
}

/// The first bad count is told, and any bad count before the product. The first two have
/// thousands of values, and the first nothing else at fault.
const SEVERAL_COUNTS: [&[u16]; 8] = [
    &[65, 64],
    &[64, 65],
    &[1, 65],
    &[2, 0, 1],
    &[64, 64, 65],
    &[64, 64, 64, 1],
    &[64, 65, 64, 0],
    &[65535, 65535, 65535, 65535],
];

/// The first has nothing else at fault: 4,100 values.
const PRODUCTS: [&[u16]; 7] = [
    &[41, 50, 2],
    &[64, 64, 2],
    &[2, 64, 64],
    &[17, 16, 16],
    &[9, 8, 8, 8],
    &[2, 2, 64, 64],
    &[64, 64, 64, 64],
];

fn shapes(list: &mut List, seed: &mut Seed, shapes: &[&[u16]]) {
    for counts in shapes {
        plain(list, &shaped(counts, seed));
        faulty(list);
    }
}

fn resized(table: &Table, nodes: usize, values: usize) -> Table {
    let mut table = table.clone();
    table.nodes.resize(nodes, 100.0);
    table.values.resize(values, 100.0);
    table
}

/// One more, one fewer and none, of the nodes, of the values and of both.
fn lengths(list: &mut List, seed: &mut Seed) {
    let shapes: [&[u16]; 5] = [&[2], &[5], &[3, 4], &[2, 3, 4], &[2, 3, 2, 3]];
    for counts in shapes {
        let good = shaped(counts, seed);
        let (nodes, values) = (good.nodes.len(), good.values.len());
        for wrong in [nodes + 1, nodes - 1, 0] {
            plain(list, &resized(&good, wrong, values));
            plain(list, &resized(&good, wrong, 0));
        }
        faulty(list);
        for wrong in [values + 1, values - 1, 0] {
            plain(list, &resized(&good, nodes, wrong));
        }
        faulty(list);
        plain(list, &resized(&good, values, nodes + 1));
    }
}

fn lengths_of_many(list: &mut List, seed: &mut Seed) {
    let good = shaped(&[64, 64], seed);
    for wrong in [4095, 4097] {
        plain(list, &resized(&good, 128, wrong));
    }
}

/// A length goes before any fault of the contents.
fn lengths_and_contents(list: &mut List, seed: &mut Seed) {
    let mut table = shaped(&[3, 2], seed);
    table.nodes[1] = f64::NAN;
    table.nodes.push(0.0);
    plain(list, &table);
    table.nodes.pop();
    table.values[0] = f64::NAN;
    table.values.pop();
    plain(list, &table);
    table.values.push(0.0);
    list.table(&table);
    faulty(list);
    list.ask_second(&[2], &[f64::NAN, 0.5]);
}

/// Accepted: the counts past the axes are anything.
fn not_looked_at(list: &mut List, seed: &mut Seed) {
    let shapes: [(u8, [u16; 4]); 8] = [
        (1, [4, 0, 65535, 1]),
        (1, [64, 64, 64, 64]),
        (1, [2, 1, 0, 0]),
        (2, [3, 4, 0, 65]),
        (2, [64, 2, 64, 64]),
        (2, [2, 2, 65535, 65535]),
        (3, [2, 3, 4, 65535]),
        (3, [4, 2, 3, 0]),
    ];
    for (axes, counts) in shapes {
        let mut table = shaped(&counts[..axes as usize], seed);
        table.counts = counts;
        plain(list, &table);
    }
}

pub fn add(list: &mut List, seed: &mut Seed) {
    axes(list, seed);
    counts(list, seed);
    shapes(list, seed, &SEVERAL_COUNTS);
    shapes(list, seed, &PRODUCTS);
    lengths(list, seed);
    lengths_of_many(list, seed);
    lengths_and_contents(list, seed);
    not_looked_at(list, seed);
}

/// The same without the tables of thousands of values.
pub fn add_small(list: &mut List, seed: &mut Seed) {
    axes(list, seed);
    counts(list, seed);
    shapes(list, seed, &SEVERAL_COUNTS[2..]);
    shapes(list, seed, &PRODUCTS[1..]);
    lengths(list, seed);
    lengths_and_contents(list, seed);
    not_looked_at(list, seed);
}
