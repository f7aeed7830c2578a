//! Stands where ninterp's `lib.rs` stands: brings into scope what its files expect.
//! `strategy::utils` and `interpolator::n::strategies` are the Rust itself; everything
//! else up to there is a stand-in or serves one.
//!
//! After them the oracle's own: tables and calls, what each is answered, and their makers.
//! The commands stand in `main.rs`.

pub mod arrays;
pub mod error;
pub mod interpolator;
pub mod per_axis;
pub mod strategy;
pub mod views;

pub mod answers;
pub mod calls;
pub mod header;
pub mod image;
pub mod lookups;
pub mod make;
pub mod program;
pub mod refusals;
pub mod rules;
pub mod slices;
pub mod table;
pub mod table_calls;
pub mod table_refusals;

// The oracle's own files call the Rust by its name.
extern crate self as ninterp;

pub(crate) use arrays::*;
pub(crate) use error::*;
pub(crate) use interpolator::data::*;
pub(crate) use strategy::step::*;
pub(crate) use strategy::traits::*;
pub(crate) use strategy::utils::*;
pub(crate) use views::*;

pub(crate) use core::fmt::Debug;
pub(crate) use core::ops::Sub;
pub(crate) use num_traits::{Float, One, Zero};
