//! The makers of the fixed list, of the fixed whole runs, and of runs drawn from a number.
//! They depend on nothing but this source: no clock, no randomness of the machine, no
//! function whose rounding the platform may choose.

pub mod awkward;
mod axes;
mod bench;
mod blended;
mod directions;
mod images;
pub mod limit;
mod linear_bench;
mod linear_tables;
mod list;
mod located;
mod looked_up;
mod near_uniform;
pub mod numbers;
mod overflow;
mod points;
mod readings;
mod refused;
mod refused_contents;
mod refused_lookups;
mod refused_shapes;
mod refused_slices;
pub mod runs;
mod sliced;
mod table_bench;
mod tables;
pub mod timed;
mod uniform_check;
mod uniform_index;
mod values;

use list::{Asked, List};
use numbers::Seed;

fn primitives(list: &mut List) {
    let mut seed = Seed::new();
    bench::add(list);
    located::add(list, &mut seed);
    refused::add(list);
    uniform_index::add(list, &mut seed);
    uniform_check::add(list, &mut seed);
}

/// Stands behind the primitives; what is added here leaves them as they are.
fn lookups(list: &mut List) {
    let mut seed = Seed::new();
    table_bench::add(list);
    looked_up::add(list, &mut seed);
    refused_lookups::add(list, &mut seed);
    refused_shapes::add(list, &mut seed);
    refused_contents::add(list, &mut seed);
}

/// Stands behind the lookups by Nearest and Step.
fn linears(list: &mut List) {
    let mut seed = Seed::new();
    list.asked = Asked::Linears;
    linear_bench::add(list);
    blended::add(list, &mut seed);
    near_uniform::add(list, &mut seed);
    overflow::add(list, &mut seed);
    refused_lookups::add_uniform(list, &mut seed);
    refused_shapes::add_small(list, &mut seed);
    refused_contents::add_small(list, &mut seed);
}

/// Stands last.
fn slices(list: &mut List) {
    let mut seed = Seed::new();
    sliced::add(list, &mut seed);
    refused_slices::add(list, &mut seed);
}

pub fn list() -> Vec<u8> {
    let mut list = List::default();
    primitives(&mut list);
    lookups(&mut list);
    linears(&mut list);
    slices(&mut list);
    list.bytes()
}
