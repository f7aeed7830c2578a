//! The loader and the writer beside the oracle's: drawn images, whole and damaged.

use ngamsothul::{load, Refusal, Shape, Table, HEADER_BYTES, MOST_BYTES};
use ninterp::image::load::load as owed_load;
use ninterp::image::write::write as owed_write;
use ninterp::make::awkward::{damage, tables};
use ninterp::make::numbers::Seed;
use ninterp::slices::mark;
use ninterp::table::Table as Lent;

/// Room for every table, and one place more.
const NODES: usize = 257;
const VALUES: usize = 4097;

fn bits(numbers: &[f64]) -> Vec<u64> {
    numbers.iter().map(|number| number.to_bits()).collect()
}

fn marks(places: usize) -> Vec<f64> {
    (0..places).map(mark).collect()
}

/// What was written, and then the marks that were there.
fn holds(out: &[f64], written: &[f64]) {
    let marks = marks(out.len());
    assert_eq!(bits(out), bits(&[written, &marks[written.len()..]].concat()));
}

/// Loads by both; the shape, where it was not refused.
fn loaded(image: &[u8]) -> Result<Shape, Refusal> {
    let (mut nodes, mut values) = (marks(NODES), marks(VALUES));
    let given = load(image, &mut nodes, &mut values);
    match (owed_load(image), given) {
        (Ok(owed), Ok(shape)) => {
            assert_eq!(shape.counts(), &*owed.shape());
            holds(&nodes, &owed.nodes);
            holds(&values, &owed.values);
        }
        (Err(owed), Err(no)) => {
            assert_eq!((no.number, no.axis, no.place), (owed.number as u32, owed.axis as usize, owed.place));
            holds(&nodes, &[]);
            holds(&values, &[]);
        }
        (owed, given) => panic!("loads: {}; here: {given:?}", owed.is_ok()),
    }
    given
}

/// The same bytes as the oracle's, and nothing after them; loaded again it is the same table.
fn written(table: &Lent) {
    let owed = owed_write(table);
    let mut image = [0xa5; MOST_BYTES + 1];
    let length = Table::new(&table.shape(), &table.nodes, &table.values).write(&mut image).expect("written");
    assert_eq!(image[..length], owed);
    assert!(image[length..].iter().all(|&byte| byte == 0xa5));
    loaded(&image[..length]).expect("loaded again");
}

fn damaged(image: &mut Vec<u8>, seed: &mut Seed) {
    match seed.under(4) {
        0 => image.truncate(seed.under(image.len())),
        1 => image[seed.under(HEADER_BYTES)] ^= 1 << seed.under(8),
        _ => damage::drawn(image, seed),
    }
}

#[test]
fn drawn_images() {
    let (mut whole, mut refused, mut numbers) = (0, 0, [0; 19]);
    for number in 0..1000 {
        let seed = &mut Seed::of(number);
        let (table, image) = tables::with_image(seed);
        loaded(&image).expect("a whole image");
        written(&table);
        whole += 1;
        for _ in 0..8 {
            let mut image = image.clone();
            damaged(&mut image, seed);
            if let Err(no) = loaded(&image) {
                refused += 1;
                numbers[no.number as usize] += 1;
            }
        }
    }
    println!("drawn images: {whole} whole, {refused} refused");
    assert!(whole == 1000 && refused > 4000, "{whole} whole, {refused} refused");
    for number in [1, 2, 4, 5, 7, 13, 14, 18] {
        assert!(numbers[number] > 20, "{number} was given {} times", numbers[number]);
    }
}
