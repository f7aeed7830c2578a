use super::*;

include!(concat!(env!("OUT_DIR"), "/interpolator/n/mods.rs"));
