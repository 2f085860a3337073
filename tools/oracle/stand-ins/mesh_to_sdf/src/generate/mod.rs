//! Stand-in for the source's `generate/mod.rs`, which is not supplied.
//!
//! Why it cannot change the field: it names the modules and holds no code.

pub mod generic;
pub mod grid;
