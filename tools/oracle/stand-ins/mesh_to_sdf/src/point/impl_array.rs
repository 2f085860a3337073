//! Stand-in for the source's `point/impl_array.rs`, which is not supplied.
//!
//! Why it cannot change the field: it gives the trait `Point` only what has no body in `point.rs` (a point is
//! its three coordinates). `add`, `sub`, `dot`, `length`, `dist`, `fmul` and `comp_div` are the bodies of
//! `point.rs` itself, which are what document 01 says of `[f32; 3]`. Had the source's own file bodies of its
//! own for these, they could differ in rounding; that cannot be seen here.

use crate::Point;

impl Point for [f32; 3] {
    fn new(x: f32, y: f32, z: f32) -> Self {
        [x, y, z]
    }
    fn x(&self) -> f32 {
        self[0]
    }
    fn y(&self) -> f32 {
        self[1]
    }
    fn z(&self) -> f32 {
        self[2]
    }
    fn x_mut(&mut self) -> &mut f32 {
        &mut self[0]
    }
    fn y_mut(&mut self) -> &mut f32 {
        &mut self[1]
    }
    fn z_mut(&mut self) -> &mut f32 {
        &mut self[2]
    }
}
