//! The sizes of document 01, under the names that the header has for them.

/// A table has 1 to so many axes.
pub const MOST_AXES: usize = 4;

/// An axis has at least so many nodes.
pub const FEWEST_NODES: usize = 2;

/// An axis has at most so many nodes.
pub const MOST_NODES: usize = 64;

/// An axis has at most so many cells, one between each two nodes.
pub const MOST_CELLS: usize = 63;

/// A table has at most so many values, the product of its counts.
pub const MOST_VALUES: usize = 4096;

/// An image has at least a header.
pub const HEADER_BYTES: usize = 40;

/// An image has at most so many bytes.
pub const MOST_BYTES: usize = 36864;

/// A [`Tally`](crate::Tally) counts at most so many records.
pub const MOST_RECORDS: usize = 1_000_000;

/// The stack that every call but [`load`](crate::load) and [`count_record`](crate::Tally::count_record) takes at most.
pub const STACK_BYTES: usize = 2048;

/// The stack that [`load`](crate::load) takes at most.
pub const LOAD_STACK_BYTES: usize = 36864;

/// The stack that [`count_record`](crate::Tally::count_record) takes at most.
pub const COUNT_STACK_BYTES: usize = 4096;
