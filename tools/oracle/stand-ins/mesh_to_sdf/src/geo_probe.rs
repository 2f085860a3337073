//! Probe into `geo.rs`: lets its private functions be asked by themselves. It computes nothing.

use crate::Point;

pub(crate) fn closest_point_triangle<V: Point>(p: &V, a: &V, b: &V, c: &V) -> V {
    super::closest_point_triangle(p, a, b, c)
}

pub(crate) fn closest_point_segment<V: Point>(p: &V, a: &V, b: &V) -> V {
    super::closest_point_segment(p, a, b)
}
