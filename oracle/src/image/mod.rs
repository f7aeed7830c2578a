//! The table image of document 01, section "The image", and request C-12. Written from these
//! alone.

pub mod header;
pub mod load;
pub mod write;
