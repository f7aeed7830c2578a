//! Runs about as long as the program answers: one record fewer than its most, as many,
//! and more.

use super::images::put_record;
use super::tables;
use crate::image::write::write;
use crate::program::MOST_RECORDS;

pub fn runs() -> Vec<Vec<u8>> {
    let table = tables::with_values(&[vec![0.0, 1.0]], vec![10.0, 20.0]);
    let mut short = write(&table);
    for place in 1..MOST_RECORDS {
        put_record((place % 6) as u8, &[place as f64 / 1.0e6], &mut short);
    }
    let more = |records: &[u8]| [short.as_slice(), records].concat();
    let mut record = Vec::new();
    put_record(2, &[0.25], &mut record);
    vec![
        more(&[]),
        more(&record[..1]),
        more(&record),
        more(&record.repeat(2)),
        more(&[&record, &record[..5]].concat()),
    ]
}
