//! Stand-in for the source's `generate/generic/mod.rs`, which is not supplied.
//!
//! Why it cannot change the field: it names the modules and holds no code.

pub mod bvh;
pub mod default;
pub mod rtree;
pub mod rtree_bvh;
