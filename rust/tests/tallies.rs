//! Records counted in a tally: in which cell, under which number, how many, and what a Rust user may lend beside whole records.

use ngamsothul::{axis, Refusal, Table, Tally, MOST_RECORDS};

/// Two axes of three nodes and two; the second step of the first is wider than its first.
const TABLE: Table = Table::new(&[3, 2], &[0.0, 1.0, 2.5, 0.0, 1.0], &[0.0, 1.0, 2.0, 3.0, 4.0, 5.0]);
const LIMIT: Refusal = Refusal { number: 17, axis: 0, place: 0 };

fn record(kind: u8, readings: &[f64]) -> Vec<u8> {
    let bytes = readings.iter().flat_map(|reading| reading.to_le_bytes());
    std::iter::once(kind).chain(bytes).collect()
}

/// The counts of a tally that are not 0: `(axis, cell, count)` and `(number, count)`.
type Counts = (Vec<(usize, usize, u32)>, Vec<(u32, u32)>);

fn counts(tally: &Tally) -> Counts {
    let cells = (0..4).flat_map(|axis| (0..63).map(move |cell| (axis, cell)));
    let cells = cells.map(|(axis, cell)| (axis, cell, tally.cell(axis, cell).unwrap()));
    let numbers = (1..=20).map(|number| (number, tally.number(number).unwrap()));
    (cells.filter(|count| count.2 != 0).collect(), numbers.filter(|count| count.1 != 0).collect())
}

/// The counts after one record.
fn after(table: Table, record: &[u8]) -> Counts {
    let mut tally = Tally::new();
    assert_eq!(tally.count_record(&table, record), Ok(()));
    assert_eq!(tally.records(), 1);
    counts(&tally)
}

fn refused_by(table: Table, record: &[u8], number: u32) {
    assert_eq!(after(table, record), (vec![], vec![(number, 1)]), "{record:?}");
}

#[test]
fn begins_with_nothing() {
    assert_eq!((Tally::new(), Tally::new().records()), (Tally::default(), 0));
    assert_eq!(counts(&Tally::new()), (vec![], vec![]));
    assert_eq!(size_of::<Tally>(), 4 * (1 + 4 * 63 + 21));
}

/// A count that no tally has is none.
#[test]
fn checked_indices() {
    let tally = Tally::new();
    for (axis, cell) in [(3, 63), (4, 0), (0, 63), (0, usize::MAX), (usize::MAX, 0), (usize::MAX, usize::MAX)] {
        assert_eq!(tally.cell(axis, cell), None);
    }
    assert_eq!((tally.cell(3, 62), tally.number(1), tally.number(20)), (Some(0), Some(0), Some(0)));
    assert_eq!((tally.number(0), tally.number(21), tally.number(u32::MAX)), (None, None, None));
}

/// By every kind but LinearUniform, which this table has no even steps for: a node's reading in the cell below it.
#[test]
fn cells_by_lower_index() {
    for (first, cell) in [(0.0, 0), (-0.0, 0), (0.9, 0), (1.0, 0), (1.0 + f64::EPSILON, 1), (2.0, 1), (2.5, 1)] {
        assert_eq!(axis::locate_lower_index(&[0.0, 1.0, 2.5], first), Ok(cell));
        for (kind, second) in [(0, 0.0), (2, 0.5), (3, 1.0), (4, 0.25)] {
            assert_eq!(after(TABLE, &record(kind, &[first, second])), (vec![(0, cell, 1), (1, 0, 1)], vec![]));
        }
        refused_by(TABLE, &record(1, &[first, 0.5]), 8);
    }
    let even = Table::new(&[3], &[0.0, 1.0, 2.0], &[5.0, 6.0, 7.0]);
    assert_eq!(after(even, &record(1, &[2.0])), (vec![(0, 1, 1)], vec![]));
}

#[test]
fn records_refused_for_their_own_sake() {
    for length in (0..40).filter(|&length| length != 17) {
        refused_by(TABLE, &[0; 40][..length], 3);
    }
    for kind in 5..=255 {
        refused_by(TABLE, &record(kind, &[f64::NAN, 9.0]), 9);
    }
    for kind in [0, 2, 3, 4] {
        for wild in [f64::NAN, f64::INFINITY, f64::NEG_INFINITY] {
            refused_by(TABLE, &record(kind, &[9.0, wild]), 10);
        }
        refused_by(TABLE, &record(kind, &[2.6, 0.5]), 11);
        refused_by(TABLE, &record(kind, &[1.0, -5e-324]), 11);
    }
    let last = 2.0 + 1.0 / (1u64 << 42) as f64;
    refused_by(Table::new(&[3], &[0.0, 1.0, last], &[0.0, 0.0, f64::MAX]), &record(1, &[last]), 12);
}

#[test]
fn records_refused_for_the_table() {
    let whole = record(0, &[0.5]);
    for counts in [&[][..], &[2; 5], &[usize::MAX; 6]] {
        refused_by(Table::new(counts, &[], &[]), &[], 1);
        refused_by(Table::new(counts, &[0.0, 1.0], &[5.0, 6.0]), &whole, 1);
    }
    refused_by(Table::new(&[65], &[], &[]), &whole, 2);
    refused_by(Table::new(&[64, 64, 2], &[], &[]), &whole, 2);
    refused_by(Table::new(&[2], &[0.0], &[5.0, 6.0]), &whole, 3);
    refused_by(Table::new(&[2], &[0.0, 1.0], &[]), &whole, 3);
    refused_by(Table::new(&[2], &[0.0, f64::NAN], &[5.0, 6.0]), &whole, 4);
    refused_by(Table::new(&[2], &[1.0, 1.0], &[5.0, 6.0]), &whole, 5);
    refused_by(Table::new(&[2], &[f64::MIN, f64::MAX], &[5.0, 6.0]), &whole, 6);
    refused_by(Table::new(&[2], &[0.0, 1.0], &[5.0, f64::NAN]), &whole, 7);
}

/// 1,000,000 records are counted, and on each axis the cells and the numbers add up to them; the next is refused, and changes nothing.
#[test]
fn limit() {
    let mut tally = Tally::new();
    let records: Vec<_> = (0..7).map(|i| record(i % 6, &[0.5 * f64::from(i), 0.125 * f64::from(i)])).collect();
    for i in 0..MOST_RECORDS {
        assert_eq!(tally.count_record(&TABLE, &records[i % 7]), Ok(()));
    }
    let (cells, numbers) = counts(&tally);
    let refused: u32 = numbers.iter().map(|count| count.1).sum();
    for axis in 0..2 {
        let accepted: u32 = cells.iter().filter(|count| count.0 == axis).map(|count| count.2).sum();
        assert_eq!((accepted + refused, tally.records()), (1_000_000, 1_000_000));
    }
    assert_eq!((tally.number(8), tally.number(9), tally.number(11)), (Some(142_857), Some(142_857), Some(142_857)));
    let full = tally.clone();
    for (table, record) in [(TABLE, &records[0][..]), (TABLE, &[]), (TABLE, &[0; 40]), (Table::new(&[], &[], &[]), &records[1])] {
        assert_eq!(tally.count_record(&table, record), Err(LIMIT));
        assert_eq!(tally, full);
    }
}
