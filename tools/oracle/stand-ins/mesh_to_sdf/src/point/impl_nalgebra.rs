//! Stand-in for the source's `point/impl_nalgebra.rs`, which is not supplied.
//!
//! Why it cannot change the field: every job is run on `[f32; 3]`. No other type of point is made.
