use super::*;

pub mod data;
pub mod n;
