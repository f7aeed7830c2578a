//! What a Rust user may lend beside a table: empty slices, too many counts, buffers that are longer or too short.

use ngamsothul::Direction::Lower;
use ngamsothul::{axis, load, Refusal, Table, MOST_BYTES};

fn no<T>(number: u32, axis: usize, place: usize) -> Result<T, Refusal> {
    Err(Refusal { number, axis, place })
}

/// Every call of a table gives this refusal.
fn refused_by_all(table: Table, number: u32, axis: usize, place: usize) {
    let (mut out, mut image) = ([0.5; 9], [7; 99]);
    for lookup in [table.linear(&[]), table.linear_uniform(&[1.0; 7]), table.nearest(&[]), table.step(&[], &[])] {
        assert_eq!(lookup, no(number, axis, place));
    }
    for at in [0, 1, usize::MAX] {
        assert_eq!(table.slice_linear(at, 0.0, &mut out), no(number, axis, place));
        assert_eq!(table.slice_linear_uniform(at, 0.0, &mut out), no(number, axis, place));
        assert_eq!(table.slice_nearest(at, 0.0, &mut []), no(number, axis, place));
        assert_eq!(table.slice_step(&[Lower], at, 0.0, &mut out), no(number, axis, place));
    }
    assert_eq!(table.write(&mut image), no(number, axis, place));
    assert_eq!(table.write(&mut []), no(number, axis, place));
    assert_eq!((out, image), ([0.5; 9], [7; 99]));
}

/// A shape has four places: more counts are refused 1, whatever they are, and none too.
#[test]
fn counts() {
    for counts in [&[][..], &[2; 5], &[2, 2, 2, 2, 0], &[0; 5], &[usize::MAX; 6], &[2; 1000]] {
        refused_by_all(Table::new(counts, &[], &[]), 1, 0, 0);
        refused_by_all(Table::new(counts, &[0.0, 1.0], &[f64::NAN; 4]), 1, 0, 0);
    }
    refused_by_all(Table::new(&[0], &[], &[]), 2, 0, 0);
    refused_by_all(Table::new(&[2, usize::MAX], &[], &[]), 2, 1, 0);
    refused_by_all(Table::new(&[64, 64, 2], &[], &[]), 2, 0, 0);
    refused_by_all(Table::new(&[2, 2], &[], &[]), 3, 0, 0);
    refused_by_all(Table::new(&[2, 2], &[0.0; 4], &[]), 3, 0, 1);
}

#[test]
fn empty_axes() {
    assert_eq!(axis::locate_lower_index(&[], 0.0), no(2, 0, 0));
    assert_eq!(axis::locate_axis(&[], 0.0), no(2, 0, 0));
    assert_eq!(axis::locate_step_index(Lower, &[], 0.0), no(2, 0, 0));
    assert_eq!(axis::exact_index(&[], 0, 0.0), no(2, 0, 0));
    assert_eq!(axis::validate_uniform_grid(&[], 0.0), no(2, 0, 0));
    assert_eq!(axis::validate_uniform_grid_epsilon(&[], None), no(2, 0, 0));
    assert_eq!(axis::exact_index(&[0.0, 1.0], usize::MAX, 0.0), no(2, 0, 1));
    assert_eq!(axis::locate_lower_index_uniform(0.0, 1.0, usize::MAX, 0.0), no(2, 0, 0));
}

/// A lent tolerance counts, a NaN too; without one the default does.
#[test]
fn tolerances() {
    let bent = [0.0, 1.0, 2.5];
    assert_eq!(axis::validate_uniform_grid_epsilon(&bent, None), no(8, 0, 1));
    assert_eq!(axis::validate_uniform_grid_epsilon(&bent, Some(0.5)), Ok(()));
    assert_eq!(axis::validate_uniform_grid_epsilon(&bent, Some(f64::NAN)), no(8, 0, 0));
}

/// There and back; the outputs may be longer, and a refused call leaves them as they were.
#[test]
fn image_there_and_back() {
    let (nodes, values) = ([0.0, 1.0, 2.0, -0.0, 4.0], [1.0, 2.0, -0.0, f64::MAX, 5e-324, 6.0]);
    let mut image = [0; MOST_BYTES];
    assert_eq!(Table::new(&[3, 2], &nodes, &values).write(&mut image[..127]), no(15, 0, 2));
    assert_eq!(Table::new(&[3, 2], &nodes, &values).write(&mut image), Ok(128));
    let image = &image[..128];
    let (mut n, mut v) = ([9.0; 7], [9.0; 7]);
    assert_eq!(load(image, &mut n[..4], &mut v), no(15, 0, 0));
    assert_eq!(load(image, &mut n, &mut v[..5]), no(15, 0, 1));
    assert_eq!(load(image, &mut [], &mut []), no(15, 0, 0));
    assert_eq!(load(&[], &mut n, &mut v), no(13, 0, 0));
    assert_eq!(load(&image[..127], &mut n, &mut v), no(13, 0, 4));
    assert_eq!((n, v), ([9.0; 7], [9.0; 7]));
    let shape = load(image, &mut n, &mut v).unwrap();
    assert_eq!((shape.counts(), shape.nodes(), shape.values()), (&[3, 2][..], 5, 6));
    assert_eq!(n[..5].iter().map(|x| x.to_bits()).collect::<Vec<_>>(), nodes.map(f64::to_bits));
    assert_eq!(v[..6].iter().map(|x| x.to_bits()).collect::<Vec<_>>(), values.map(f64::to_bits));
    assert_eq!((&n[5..], &v[6..]), (&[9.0; 2][..], &[9.0][..]));
    assert_eq!(shape.table(&n, &v).nearest(&[1.9, 3.0]), Ok(6.0));
    assert_eq!(shape.table(&n[..4], &v).nearest(&[1.9, 3.0]), no(3, 0, 0));
}

/// Two nodes and two values, at bytes 40 to 72: their offsets, and what is refused there, 0 where nothing is.
const AREAS: [(u8, u8, (u32, usize, usize)); 8] = [
    (40, 56, (0, 0, 0)),
    (56, 40, (0, 0, 0)),
    (40, 48, (18, 0, 1)), // the values begin on the last node
    (48, 40, (18, 0, 1)),
    (40, 40, (18, 0, 1)),
    (56, 56, (18, 0, 1)),
    (40, 64, (14, 1, 0)),
    (64, 64, (14, 0, 0)),
];

/// Areas that touch load, in either order. Two that share a byte are refused, before the room is looked at, and nothing is written.
#[test]
fn areas() {
    let mut image = [0; 72];
    assert_eq!(Table::new(&[2], &[0.0, 2.0], &[10.0, 20.0]).write(&mut image), Ok(72));
    for (nodes, values, (number, axis, place)) in AREAS {
        (image[16], image[32]) = (nodes, values);
        let (mut n, mut v) = ([9.0; 2], [9.0; 2]);
        let shape = load(&image, &mut n, &mut v);
        if number == 0 {
            assert_eq!(shape.map(|shape| shape.counts().to_vec()), Ok(vec![2]));
            assert_eq!(if nodes < values { (n, v) } else { (v, n) }, ([0.0, 2.0], [10.0, 20.0]));
            assert_eq!(load(&image, &mut [], &mut []), no(15, 0, 0));
        } else {
            assert_eq!(shape, no(number, axis, place));
            assert_eq!((n, v), ([9.0; 2], [9.0; 2]));
            assert_eq!(load(&image, &mut [], &mut []), no(number, axis, place));
        }
    }
}
