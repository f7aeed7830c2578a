use super::*;

pub mod kinds;
pub mod step;
pub mod traits;

pub use kinds::*;

include!(concat!(env!("OUT_DIR"), "/strategy/mods.rs"));
