//! Table lookup on rectilinear grids, for inverter sync boards: safe functions over the archive `libngamsothul.a`, in which every function
//! is proved.
//!
//! A [`Table`] borrows counts, nodes and values. Every call judges what it is lent, all of it, and answers or says by a [`Refusal`] what is
//! wrong and where; a refused call writes nothing. No call allocates, panics or keeps anything between calls. A [`Tally`], which its owner
//! keeps, counts into which cells the readings of recorded lookups fall.
//!
//! ```
#![doc = include_str!("../examples/readme.rs")]
//! ```
//!
//! Axes, cells, nodes, values and places are counted from 0. A call takes at most [`STACK_BYTES`] of stack, [`load`] at most
//! [`LOAD_STACK_BYTES`] and [`Tally::count_record`] at most [`COUNT_STACK_BYTES`] (measured, not proved).
#![no_std]
#![deny(missing_docs)]
#![deny(unsafe_code)]
#![deny(unsafe_op_in_unsafe_fn)]
#![deny(clippy::undocumented_unsafe_blocks)]

mod answers;
pub mod axis;
mod ffi;
mod image;
mod refusal;
mod shape;
mod sizes;
mod table;
mod tally;

pub use axis::Direction;
pub use image::load;
pub use refusal::Refusal;
pub use shape::Shape;
pub use sizes::{COUNT_STACK_BYTES, LOAD_STACK_BYTES, STACK_BYTES};
pub use sizes::{FEWEST_NODES, HEADER_BYTES, MOST_AXES, MOST_BYTES, MOST_CELLS, MOST_NODES, MOST_RECORDS, MOST_VALUES};
pub use table::Table;
pub use tally::Tally;
